"""What a drafter does on the page, by mouse and by the keyboard alone."""
import contextlib, json
from typing import Iterator, Tuple

from .browser import CONTROL, SHIFT, Browser, Failure, Page
from .served import Office, Served

SUMMARY = 'document.querySelector("#panel-%s .summary").textContent'
HOSTILE = """# <script>window.ran = 1</script> <img src=x onerror="window.ran = 2">

Text with <b>marks</b>, [a link](javascript:window.ran=3) and `<i>code</i>`.

| <script>window.ran = 4</script> |
|---|
| <svg onload="window.ran=5"> |

```catala
declaration scope S:
  input n content integer
  output x content integer # <script>window.ran = 6</script>
scope S:
  definition x equals n + <script>window.ran = 7</script>
```
"""
# Which of thirty truth values hold is asked sixteen times by one condition: what an audit takes some seconds for.
PARITY = """```catala
declaration scope S:
%s  output x content integer
scope S:
  definition x under condition %s consequence equals 1
```
""" % (''.join('  input b%d content boolean\n' % k for k in range(30)),
       ' or '.join('(%s)' % ' xor '.join('b%d' % k for k in range(30)) for _ in range(16)))


def equal(seen, wanted, what: str) -> None:
    if seen != wanted:
        raise Failure('%s is %s, and not %s' % (what, json.dumps(seen), json.dumps(wanted)))


@contextlib.contextmanager
def shown(office: Office, browser: Browser, statute: str, width: int = 1280, **files: str) -> Iterator[Tuple[Page, Served]]:
    """A law on the page, of which nothing was said that goes wrong."""
    page = browser.page()
    page.size(width, 900)
    with office.serves(office.folder(statute, **files)) as served:
        page.open(served.address)
        page.wait('document.querySelector("#panel-faults .summary").textContent', 'faults, or none')
        try:
            yield page, served
            equal(page.said, [], 'what the page says of itself')
        finally:
            page.close()


def put_behind(page: Page, piece: str) -> None:
    """Puts the cursor behind a piece of the code."""
    page.value('''((piece) => {
        const field = [...document.querySelectorAll(".file:not([hidden]) .code textarea")].find((other) => other.value.includes(piece));
        const at = field.value.indexOf(piece) + piece.length;
        field.focus();
        field.setSelectionRange(at, at);
    })(%s)''' % json.dumps(piece))


def a_fault_is_explained_and_mended(office: Office, browser: Browser) -> None:
    with shown(office, browser, 'heating_subsidy') as (page, served):
        page.wait('document.querySelector("#panel-faults .summary").dataset.kind === "good"')
        put_behind(page, 'consequence equals')
        page.press('Backspace')
        page.wait(SUMMARY % 'faults' + '.startsWith("1 fault")', 'one fault')
        mends = 'document.querySelector("#panel-faults .helps").textContent.includes("Write equals in front of the value")'
        page.wait(mends, 'how it is mended')
        equal(page.value('document.querySelector(".on-fault").textContent'), 'equal', 'what is underlined')
        page.value('scrollTo(0, 0), document.activeElement.blur()')
        page.click('#panel-faults .place')
        chosen = '(({ value, selectionStart, selectionEnd }) => value.slice(selectionStart, selectionEnd))(document.activeElement)'
        equal(page.value(chosen), 'equal', 'what a click on the place chooses')
        page.press('ArrowRight')
        page.write('s')
        page.wait('document.querySelector("#panel-faults .summary").dataset.kind === "good"', 'that it is accepted again')
        equal(page.value('document.querySelectorAll(".on-fault").length'), 0, 'the number of underlined pieces')
        equal(page.value('window.page.view.text()'), served.law.read_text(), 'the text')


def both_rules_of_a_contradiction_are_marked(office: Office, browser: Browser) -> None:
    with shown(office, browser, 'heating_subsidy_draft') as (page, served):
        page.click('#tab-audit')
        page.wait('document.querySelectorAll("#panel-audit .place").length === 2', 'the two rules')
        blocks = '[...document.querySelectorAll(".code")].filter((block) => block.querySelector(".on-clash"))'
        equal(page.value(blocks + '.map((block) => block.querySelector("textarea").ariaLabel)'),
              ['Code, lines 55 to 56, Section 5', 'Code, lines 64 to 65, Section 6'], 'where rules are marked')
        page.click('#panel-audit .place')
        office.picture(page, 'contradiction')
        page.click('#panel-audit .shows button')
        page.wait(SUMMARY % 'run' + '.startsWith("conflict HeatingSubsidy.subsidy at law.md:56:23")', 'the run of the input')
        equal(page.value('[...document.querySelectorAll("#panel-run .form input, #panel-run .form select")].map((field) => field.value)'),
              ['0.00', '0', 'DistrictHeating'], 'what the form is filled with')


def a_missing_case_is_told_in_the_text(office: Office, browser: Browser) -> None:
    with shown(office, browser, 'heating_subsidy_second_draft') as (page, served):
        page.click('#tab-audit')
        told = page.wait('document.querySelector(".missing").textContent', 'that a case is missing')
        equal('20000.00' in told and 'subsidy' in told, True, 'that it tells the input')
        page.click('#panel-audit .verdicts > li > .place')
        equal(page.value('document.activeElement.className'), 'missing', 'what a click goes to')


def a_form_is_filled_run_and_kept_by_the_keyboard(office: Office, browser: Browser) -> None:
    with shown(office, browser, '', law_md=served_law()) as (page, served):
        page.wait('document.querySelector("#panel-run button.first")', 'the form')
        page.value('document.querySelector("#tab-faults").focus()')
        for _ in range(4):
            if not page.value('document.querySelector("#panel-run").checkVisibility()'):
                page.press('ArrowRight')
        equal(page.value('document.activeElement.id'), 'tab-run', 'the panel that the keys have chosen')
        for _ in range(20):
            if page.value('document.activeElement.dataset.path') == 'income':
                break
            page.press('Tab')
        page.write('100.50')
        page.press('Enter')
        page.wait('document.querySelector("#panel-run .result td").textContent === "25.13"', 'the output')
        for _ in range(20):
            page.press('Tab')
            if page.value('document.activeElement.tagName') == 'SUMMARY':
                break
        page.press('Enter')
        page.press('Tab')
        page.write('cents are rounded')
        page.press('Enter')
        page.wait(SUMMARY % 'cases' + ' === "1 agree"', 'the new case')
        there = sorted(file.name for file in served.law.parent.iterdir())
        equal(there, ['cents_are_rounded.json', 'cents_are_rounded.reply', 'law.md', 'scope'], 'the folder')
        equal((served.law.parent / 'cents_are_rounded.reply').read_text(), '{"tax":"25.13"}\n', 'the reply')
        put_behind(page, 'income * 25')
        page.write('0')
        page.wait(SUMMARY % 'cases' + ' === "1 differ"', 'that the case is red')


def served_law() -> str:
    return """# Law

```catala
declaration scope Tax:
  input income content money
  output tax content money
scope Tax:
  definition tax equals income * 25%
```
"""


def the_law_is_saved_and_what_others_write_is_taken_in(office: Office, browser: Browser) -> None:
    with shown(office, browser, '', law_md=served_law()) as (page, served):
        put_behind(page, 'income * 25')
        page.press('Backspace')
        page.wait('document.querySelector("#saved").textContent === "Not saved yet"')
        equal(served.law.read_text(), served_law(), 'the file before it is saved')
        page.press('s', CONTROL)
        page.wait('document.querySelector("#saved").textContent === "Saved"')
        equal(served.law.read_text(), served_law().replace('25%', '2%'), 'the file')
        served.law.write_text(served_law().replace('25%', '7%'))
        page.wait('window.page.view.text().includes("7%")', 'what another has written')
        put_behind(page, 'income * 7')
        page.write('1')
        served.law.write_text(served_law().replace('25%', '8%'))
        page.wait('document.querySelector("#outside button")', 'the question which text counts')
        equal(page.value('window.page.view.text().includes("71%")'), True, 'that the drafter keeps what was typed')
        office.picture(page, 'outside')
        page.click('#outside button + button')
        page.press('s', CONTROL)
        page.wait('document.querySelector("#saved").textContent === "Saved"')
        equal(served.law.read_text(), served_law().replace('25%', '71%'), 'the file')


INCLUDING = """# Tax

> Include: figures.md

```catala
scope Tax:
  definition tax equals income * rate
```
"""
FIGURES = """# Figures

```catala
declaration scope Tax:
  input income content money
  internal rate content decimal
  output tax content money
scope Tax:
  definition rate equals 25%
```
"""
FILES = '[...document.querySelectorAll(".files button")].map((file) => file.textContent)'


def a_file_that_is_included_is_opened_edited_and_saved(office: Office, browser: Browser) -> None:
    with shown(office, browser, '', law_md=INCLUDING, figures_md=FIGURES) as (page, served):
        figures = served.law.parent / 'figures.md'
        page.wait(FILES + '.join() === "law.md,figures.md"', 'the two files')
        page.wait('document.querySelector("#panel-audit .summary").textContent', 'the audit')
        page.value('document.querySelector(".edits").focus()')
        page.press('Enter')
        page.press('Escape')
        page.click('.opens')
        page.wait('window.page.view.text()[2] === "F"', 'the file that is included')
        equal(page.value('document.activeElement.textContent'), 'figures.md', 'what is used next')
        put_behind(page, 'definition rate equals')
        page.press('Backspace')
        page.wait(FILES + '.join() === "law.md,figures.md 1 fault"', 'where the fault is')
        page.wait('document.querySelector(".file:not([hidden]) .on-fault")', 'that the fault is marked')
        equal(page.value('document.querySelector("#panel-faults .place").textContent.split(":")[0]'), 'figures.md, line 9', 'its place')
        page.wait('document.querySelector("#panel-faults").textContent.includes("here may stand")', 'its words')
        page.click('.files button')
        equal(page.value('window.page.view.text()'), INCLUDING, 'the text of the law')
        office.picture(page, 'fault_in_another_file')
        page.click('#panel-faults .place')
        chosen = '(({ value, selectionStart, selectionEnd }) => value.slice(selectionStart, selectionEnd))(document.activeElement)'
        equal(page.value(chosen), 'equal', 'what a click on the place chooses')
        page.write('equals')
        page.wait('document.querySelector("#panel-faults .summary").dataset.kind === "good"', 'that it is accepted again')
        put_behind(page, 'rate equals 25')
        page.press('Backspace')
        page.wait('document.querySelector("#saved").textContent === "Not saved yet: figures.md"')
        page.value('window.page.tabs.show("run")')
        page.wait('[...document.querySelectorAll("#panel-run input")].find((field) => field.dataset.path === "income")', 'the form')
        page.click('#panel-run input[data-path="income"]')
        page.write('100')
        page.press('Enter')
        page.wait('document.querySelector("#panel-run .result td").textContent === "2.00"', 'a run of what is not saved')
        equal((figures.read_text(), sorted(file.name for file in served.law.parent.iterdir())), (FIGURES, ['figures.md', 'law.md']),
              'the folder before it is saved')
        page.press('s', CONTROL)
        page.wait('document.querySelector("#saved").textContent === "Saved"')
        equal((figures.read_text(), served.law.read_text()), (FIGURES.replace('25%', '2%'), INCLUDING), 'the files')
        figures.write_text(FIGURES.replace('25%', '8%'))
        page.wait('document.querySelector("#panel-run .result td").textContent === "8.00"', 'what another has written')


def a_file_that_cannot_be_saved_says_why(office: Office, browser: Browser) -> None:
    with shown(office, browser, '', law_md=INCLUDING, figures_md=FIGURES) as (page, served):
        page.wait('document.querySelectorAll(".files button").length === 2', 'the two files')
        page.click('.files button + button')
        put_behind(page, 'rate equals 25')
        page.write('1')
        (served.law.parent / 'figures.md').unlink()
        page.press('s', CONTROL)
        page.wait('document.querySelector("#saved").textContent.startsWith("figures.md ")', 'what is wrong')
        equal(page.value('window.page.view.text().includes("251%")'), True, 'that what was typed is kept')
        equal(sorted(file.name for file in served.law.parent.iterdir()), ['law.md'], 'the folder')


def what_others_write_into_an_included_file_is_asked_about(office: Office, browser: Browser) -> None:
    with shown(office, browser, '', law_md=INCLUDING, figures_md=FIGURES) as (page, served):
        page.wait('document.querySelectorAll(".files button").length === 2', 'the two files')
        page.click('.files button + button')
        put_behind(page, 'rate equals 25')
        page.write('1')
        (served.law.parent / 'figures.md').write_text(FIGURES.replace('25%', '8%'))
        page.wait('document.querySelector("#outside p").textContent.startsWith("figures.md has changed")', 'the question which text counts')
        page.click('#outside button')
        page.wait('document.querySelector("#outside").hidden && window.page.view.text().includes("8%")', 'the text of the file')
        page.click('.files button')
        put_behind(page, 'income * rate')
        page.value('document.querySelector(".edits").focus()')
        page.press('Enter')
        page.wait('document.activeElement.tagName === "TEXTAREA"')
        page.value('document.activeElement.value = "# Tax\\n", document.activeElement.dispatchEvent(new Event("input"))')
        page.press('Escape')
        page.wait('document.querySelector(".files").hidden', 'that the file is none of the law any more')


def words_are_edited_in_place(office: Office, browser: Browser) -> None:
    with shown(office, browser, '', law_md=served_law()) as (page, served):
        page.value('document.querySelector(".edits").focus()')
        page.press('Enter')
        page.wait('document.activeElement.tagName === "TEXTAREA"')
        page.value('document.activeElement.setSelectionRange(2, 5)')
        page.write('By-law')
        page.value('document.activeElement.setSelectionRange(9, 9)')
        page.write('\nWords.\n\n```catala\n# nothing\n```\n')
        page.press('Escape')
        page.wait('document.querySelectorAll(".code").length === 2', 'the new block')
        equal(page.value('document.querySelector(".words h2").textContent'), 'By-law', 'the heading')
        equal(page.value('window.page.view.text()'), '# By-law\n\nWords.\n\n```catala\n# nothing\n```\n\n' + served_law()[7:], 'the text')


def a_law_is_shown_as_text(office: Office, browser: Browser) -> None:
    with shown(office, browser, '', law_md=HOSTILE) as (page, served):
        page.wait('document.querySelector("#panel-faults .note")', 'the fault')
        page.wait('document.querySelector("#panel-faults .excerpt").textContent.includes("<script>")', 'the line as text')
        equal(page.value('window.ran ?? null'), None, 'what has run')
        made = 'document.querySelectorAll("#law script, #law img, #law svg, #law b, #law i, #law a, #panels script").length'
        equal(page.value(made), 0, 'the number of elements')
        equal(page.value('document.querySelector(".words h2").textContent'), HOSTILE.split('\n')[0][2:], 'the heading')


def a_long_audit_shows_that_it_runs_and_is_stopped(office: Office, browser: Browser) -> None:
    with shown(office, browser, '', law_md=PARITY) as (page, served):
        page.click('#tab-audit')
        page.wait('!document.querySelector("#panel-audit .running").hidden', 'that the audit runs')
        office.picture(page, 'running')
        page.click('#panel-audit .running button')
        page.wait(SUMMARY % 'audit' + ' === "The audit was stopped."')
        equal(page.value('document.activeElement.textContent'), 'Audit again', 'what is used next')


def places_are_gone_through_by_a_key(office: Office, browser: Browser) -> None:
    with shown(office, browser, 'heating_subsidy_draft', width=400) as (page, served):
        page.wait('document.querySelectorAll(".on-clash").length', 'the rules')
        lines = []
        for modifiers in (0, 0, SHIFT):
            page.press('F8', modifiers)
            lines.append(page.value('document.activeElement.ariaLabel'))
        told = [line and line.split(', ')[1] for line in lines]
        equal(told, ['lines 55 to 56', 'lines 64 to 65', 'lines 55 to 56'], 'where the key goes')


TESTS = [a_fault_is_explained_and_mended, both_rules_of_a_contradiction_are_marked, a_missing_case_is_told_in_the_text,
         a_form_is_filled_run_and_kept_by_the_keyboard, the_law_is_saved_and_what_others_write_is_taken_in,
         a_file_that_is_included_is_opened_edited_and_saved, a_file_that_cannot_be_saved_says_why,
         what_others_write_into_an_included_file_is_asked_about,
         words_are_edited_in_place, a_law_is_shown_as_text, a_long_audit_shows_that_it_runs_and_is_stopped,
         places_are_gone_through_by_a_key]
