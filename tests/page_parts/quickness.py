"""From a key to new faults: of a law of 100 KiB less than a tenth of a second; on a busy machine, of a processor's time."""
import os, pathlib, re, statistics
from typing import Tuple

from .browser import Browser, Failure, Page
from .served import EXAMPLES, Office, Served
from .working import put_behind, shown

SIZE, TIMES, MOST = 100 * 1024, 7, 100
STATUTES = ('heating_subsidy', 'us_earned_income_credit', 'german_social_insurance', 'uk_income_tax')
# From the key to the frame in which the number of faults is another one.
TIMED = '''new Promise((told) => {
  const summary = document.querySelector("#panel-faults .summary");
  const before = summary.dataset.kind;
  const watch = new MutationObserver(() => {
    if (summary.dataset.kind === before) return;
    watch.disconnect();
    requestAnimationFrame(() => told(performance.now() - began));
  });
  watch.observe(summary, { attributes: true, childList: true });
  const began = performance.now();
  document.execCommand(before === "good" ? "delete" : "insertText", false, "s");
})'''


def long_law() -> str:
    """Statutes one behind the other, each of whose types and scopes has a name of its own."""
    texts, size = [], 0
    while size < SIZE:
        number = len(texts)
        text = (EXAMPLES / STATUTES[number % len(STATUTES)] / 'law.md').read_text()
        named = set(re.findall(r'declaration (?:scope|structure|enumeration) (\w+)|^  -- ([A-Z]\w*)', text, re.M))
        for name in {name for names in named for name in names if name}:
            text = re.sub(r'\b%s\b' % name, '%sN%d' % (name, number), text)
        texts.append(text)
        size += len(text.encode())
    return '\n'.join(texts)


def worked(page: Page, served: Served) -> Tuple[float, float, float]:
    """Seconds of a processor so far: of the page, of its server, and of the calls that have ended."""
    told = {metric['name']: metric['value'] for metric in page.call('Performance.getMetrics')['metrics']}
    spent = pathlib.Path('/proc/%d/stat' % served.process.pid).read_text().rpartition(')')[2].split()
    own, of_calls = (sum(map(int, spent[k:k + 2])) / os.sysconf('SC_CLK_TCK') for k in (11, 13))
    return told['TaskDuration'], own, of_calls


def new_faults_come_in_a_tenth_of_a_second(office: Office, browser: Browser) -> None:
    with shown(office, browser, '', law_md=long_law()) as (page, served):
        page.wait('document.querySelector("#panel-faults .summary").dataset.kind === "good"')
        put_behind(page, 'definition credit equals')
        page.call('Performance.enable', timeDomain='threadTicks')
        began = worked(page, served)
        times = [page.value(TIMED) for _ in range(2 * TIMES)]
        work = [1000 * (now - then) / len(times) for then, now in zip(began, worked(page, served))]
        print('from a key to new faults: %s ms' % ' '.join('%.0f' % time for time in sorted(times)))
        print('of a processor for each key: %.0f ms of the page, %.0f ms of its server, %.0f ms of the program' % tuple(work))
        is_busy = os.getloadavg()[0] > os.cpu_count()
        took = sum(work) if is_busy else statistics.median(times)
        if took > MOST:
            raise Failure('it takes %.0f ms%s' % (took, ' of a processor' if is_busy else ''))


TESTS = [new_faults_come_in_a_tenth_of_a_second]
