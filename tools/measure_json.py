"""What tools/measure tells of JSON: a sum over a list of structures beside the same by libraries that others would take.

Each peer reads standard input by its library into that library's own tree, adds up, and writes the same line."""
import json, shutil, subprocess, sys

from measure_growth import persons
from measure_runs import compiled, measured

COUNTS = 10_000, 100_000, 1_000_000
JANSSON = '''#include <jansson.h>
#include <stdio.h>
int main(void) {
  json_t *all = json_loadf(stdin, 0, NULL), *list = json_object_get(all, "l"), *one;
  size_t k;
  long long total = 0;
  json_array_foreach(list, k, one) total += json_integer_value(json_object_get(one, "income"));
  printf("{\\"x\\":%lld}\\n", total);
}
'''
RAPIDJSON = '''#include <rapidjson/document.h>
#include <rapidjson/filereadstream.h>
#include <cstdio>
int main() {
  static char buffer[65536];
  rapidjson::FileReadStream in(stdin, buffer, sizeof buffer);
  rapidjson::Document all;
  all.ParseStream(in);
  long long total = 0;
  for (auto &one : all["l"].GetArray()) total += one["income"].GetInt64();
  std::printf("{\\"x\\":%lld}\\n", total);
}
'''
PYTHON = 'import json, sys; print(\'{"x":%d}\' % sum(p["income"] for p in json.load(sys.stdin)["l"]))'


def peers(folder):
    """Each peer that is there, and its words."""
    found = [('jansson', [compiled(folder, 'peer.c', JANSSON, ['cc'])]), ('rapidjson', [compiled(folder, 'peer.cc', RAPIDJSON, ['c++'])]),
             ('Python', [sys.executable, '-c', PYTHON]), ('jq', [shutil.which('jq'), '-c', '{x: ([.l[].income] | add)}'])]
    for told, words in found:
        if not words[0]:
            print('%s is not there' % told, file=sys.stderr)
    return [(told, words) for told, words in found if words[0]]


def lists_of_structures(folder, program):
    others = peers(folder)
    print('\n| Structures | catala | memory | %s |' % ' | '.join('%s | memory' % told for told, _ in others))
    print('|---|---|---|' + '---|---|' * len(others))
    for count in COUNTS:
        call = persons(count)
        for name, text in call.files.items():
            (folder / name).write_text(text)
        cells = []
        for words in [[program, *call.words], *(words for _, words in others)]:
            took, memory, reply = measured(folder, words, call.given)
            if json.loads(reply) != json.loads(call.reply):
                print('%s: %r' % (words[0], reply[:80]), file=sys.stderr)
            cells.append('%.2f s | %.0f MiB' % (took, memory))
        print('| %s | %s |' % (format(count, ','), ' | '.join(cells)), flush=True)
