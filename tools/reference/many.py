"""What `many` writes: a line for each input of an array, as `run` would write it of that input alone."""
import oracle_json as forms


def many(program, scope, data):
    """The lines of the elements, and None; or none, and the line that refuses the whole."""
    number = program.runs.numbers.get(scope)
    if number is None:
        return [], 'no such scope %s' % scope
    try:
        inputs = forms.parsed(data)
    except forms.NotJson:
        return [], 'input refused I1'
    if type(inputs) is not list:
        return [], 'input refused I4 (input)'
    return [program.run_on(number, json, program.runs) for json in inputs], None
