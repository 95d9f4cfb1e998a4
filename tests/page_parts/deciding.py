"""What decides, on the page: the trace of a run, a picture, and decision tables."""
from .browser import Browser
from .looking import looked_at
from .served import EXAMPLES, Office
from .working import SUMMARY, equal, put_behind, shown

# The numbers beside lines of code, by the numbers of the lines; and those beside headings, by their texts.
BESIDE_LINES = '''Object.fromEntries(window.page.view.views.flatMap(({ rows, stretch }) => (rows ?? [])
    .map(({ element }, k) => [stretch.first + k, element.dataset.order]).filter(([, order]) => order)))'''
BESIDE_HEADINGS = '''Object.fromEntries([...document.querySelectorAll("#law .order")]
    .map((told) => [told.parentElement.firstChild.textContent, told.lastChild.textContent]))'''

ENTRIES = '[...document.querySelectorAll(".trace li > .variable")].map((told) => told.textContent)'

DEAD = """# Law

## Section 1

```catala
declaration scope S:
  input n content integer
  output x content integer
scope S:
  label a definition x under condition n > 5
    consequence equals 1
```

## Section 2

```catala
scope S:
  exception a definition x under condition n > 3 consequence equals 2
```
"""


def a_case(statute: str, name: str) -> str:
    return (EXAMPLES / statute / (name + '.json')).read_text()


def the_rules_that_decide_are_marked_in_their_order(office: Office, browser: Browser) -> None:
    """As the page of the language tells the trace of this case."""
    with shown(office, browser, 'german_notice_periods') as (page, served):
        page.wait('document.querySelector("#panel-run button.first")', 'the form')
        page.value('window.page.runInput("Notice", %r)' % a_case('german_notice_periods', 'a_probation'))
        page.wait('document.querySelector("#panel-run .trace")', 'the trace')
        equal(page.value(ENTRIES), ['months of Notice', 'four_weeks of Notice', 'employment_ends of Notice'], 'what is decided')
        articles = '[...document.querySelectorAll(".trace .article")].map((told) => told.textContent)'
        equal(page.value(articles), ['Longer periods', 'The basic period', 'Probation'], 'the articles')
        equal(page.value(BESIDE_LINES), {'25': '2', '38': '1', '55': '3'}, 'the numbers beside the lines')
        equal(page.value(BESIDE_HEADINGS), {'The basic period': '2', 'Longer periods': '1', 'Probation': '3'}, 'and beside headings')
        page.click('.trace ol > li:last-child .place')
        equal(page.value('document.activeElement.value.slice(0, document.activeElement.selectionEnd).split("\\n").at(-1).trim()'),
              'exception basic definition', 'what a click on a place chooses')
        page.press('F8')
        equal(page.value('document.activeElement.ariaLabel.split(",")[1]'), ' lines 10 to 27', 'where a key goes first')
        for panel in ('run', 'law'):
            looked_at(office, page, 'trace_' + panel, panel)
        page.value('window.page.tabs.show("run")')
        page.value('document.querySelector("#panel-run .form input").dispatchEvent(new Event("input"))')
        equal(page.value(BESIDE_LINES), {}, 'the numbers when another input stands in the form')


def a_rule_that_decides_often_is_told_once(office: Office, browser: Browser) -> None:
    """Two children born on a leap day, of whom one has a ground: the same two rules decide of both."""
    with shown(office, browser, 'german_child_benefit') as (page, served):
        page.wait('document.querySelector("#panel-run button.first")', 'the form')
        page.value('window.page.runInput("ChildBenefit", %r)' % a_case('german_child_benefit', 'a_leap_day_and_eighteen_years'))
        page.wait('document.querySelector("#panel-run .trace")', 'the trace')
        told = page.value(ENTRIES)
        equal(told[:4], ['is_minor of BenefitOfChild, 2 times', 'is_employed of BenefitOfChild, 2 times', 'has_ground of BenefitOfChild',
                         'is_considered of BenefitOfChild'], 'what is decided first')
        equal(len(told), 11, 'how much is told')
        equal(page.value('document.querySelector(".trace ol > li:nth-child(3)").textContent.includes("No rule holds.")'), True,
              'that no rule is told where none holds')
        equal(page.value(BESIDE_HEADINGS)['Children of age'], '2, 6, 7', 'the numbers beside a heading')


def names_of_articles_are_shown_as_text(office: Office, browser: Browser) -> None:
    heading = '<img src=x onerror="window.ran = 1"> Section'
    with shown(office, browser, '', law_md=DEAD.replace('Section 2', heading)) as (page, served):
        page.wait('document.querySelector("#panel-run button.first")', 'the form')
        page.value('window.page.runInput("S", %r)' % '{"n":4}')
        page.wait('document.querySelector("#panel-run .trace")', 'the trace')
        equal(page.value('document.querySelector(".trace .article").textContent'), heading, 'the name of the article')
        page.value('window.page.tabs.show("picture")')
        page.click('#panel-picture button.first')
        page.wait('document.querySelector(".changes .article")', 'the picture')
        equal(page.value('document.querySelector(".changes .article").textContent'), heading + ': x', 'its name beside the picture')
        equal(page.value('[window.ran ?? null, document.querySelectorAll("#law img, #panels img").length]'), [None, 0], 'what has run')


def an_output_is_drawn_along_an_input(office: Office, browser: Browser) -> None:
    """Up to 20,000 a household receives 300, at 20,000 itself nothing is said, and up to 30,000 it receives 150."""
    with shown(office, browser, 'heating_subsidy_second_draft') as (page, served):
        page.wait('document.querySelector("#panel-run button.first")', 'the form')
        given = '{"age_of_youngest":9,"heating":"Gas","income":0}'
        page.value('window.page.runInput("HeatingSubsidy", %r)' % given)
        page.click('#tab-picture')
        page.value("""Object.entries({ over: "income", from: "0", to: "40000", step: "500" }).forEach(([name, value]) => {
            document.querySelector(`#picture-${name}`).value = value;
            document.querySelector(`#picture-${name}`).dispatchEvent(new Event("input")); })""")
        page.click('#panel-picture button.first')
        page.wait(SUMMARY % 'picture' + ' === "subsidy along income: 3 changes"', 'the picture')
        changes = '[...document.querySelectorAll(".changes > li > .variable")].map((told) => told.textContent)'
        told = ['From 20,000 on: no value', 'From 20,000.01 on: 150.00', 'From 30,000.01 on, where it falls from 150.00 to 0.00']
        equal(page.value(changes), told, 'what changes')
        equal(page.value('document.querySelector("#picture-step").value'), '500', 'the step')
        equal(page.value(BESIDE_LINES), {'39': '2', '48': '3'}, 'the numbers beside the lines')
        equal(page.value('[...document.querySelectorAll("svg .band")].map((band) => band.getAttribute("class"))'),
              ['band is-no-value is-narrow'], 'the bands')
        looked_at(office, page, 'picture', 'picture')
        page.click('.changes > li:nth-child(3) .place')
        page.wait('document.activeElement.ariaLabel === "Code, lines 47 to 48, Section 4"', 'the rule that decides')
        put_behind(page, 'income < $20,000')
        page.press('Backspace')
        page.write('1')
        page.value('window.page.tabs.show("picture")')
        page.wait(changes + '.slice(0, 2).join() === "From 20,000.01 on: conflict,From 20,001 on: 150.00"', 'the law as it stands')


def each_row_of_a_table_is_tied_to_its_rule(office: Office, browser: Browser) -> None:
    with shown(office, browser, '', law_md=DEAD) as (page, served):
        page.wait(SUMMARY % 'table' + ' === "1 rule never decides"', 'what the rules do')
        dead = '[...document.querySelectorAll(".line")].filter((row) => row.querySelector(".on-dead")).map((row) => row.textContent.trim())'
        equal(page.value(dead), ['label a definition x under condition n > 5', 'consequence equals 1'], 'the lines that are grey')
        equal(page.value(BESIDE_LINES), {}, 'the numbers beside the lines')
        page.value('window.page.tabs.show("table")')
        equal(page.value('document.querySelector("#table-variable").value'), 'S.x', 'the variable')
        told = page.value('[...document.querySelectorAll(".decisions tbody tr")].map((row) => row.textContent)')
        equal([row.startswith(str(k)) for k, row in enumerate(told, 1)], [True] * len(told), 'the numbers of the rows')
        ruled = [str(k) for k, row in enumerate(told, 1) if 'line 18' in row]
        equal(ruled != [] and page.value(BESIDE_LINES) == {'18': ', '.join(ruled)}, True, 'that the rule has the numbers of its rows')
        equal(page.value(BESIDE_HEADINGS), {'Section 2': ', '.join(ruled)}, 'the numbers beside headings')
        looked_at(office, page, 'table', 'table')
        looked_at(office, page, 'law_with_a_dead_rule', 'law')
        page.value('window.page.tabs.show("table")')
        page.click('.decisions .place')
        page.wait('document.activeElement.tagName === "TEXTAREA"', 'the rule of a row')
        put_behind(page, 'n > 5')
        page.press('Backspace')
        page.write('2')
        page.wait(SUMMARY % 'table' + ' === "Each rule decides for some input."', 'the rules of the law as it stands')


def a_program_without_tables_has_no_panel_of_them(office: Office, browser: Browser) -> None:
    with shown(office.without_tables(), browser, '', law_md=DEAD) as (page, served):
        names = '[...document.querySelectorAll("[role=tab]")].map((tab) => tab.firstChild.textContent)'
        equal(page.value(names), ['Law', 'Faults', 'Audit', 'Run', 'Picture', 'Cases'], 'the panels')


TESTS = [the_rules_that_decide_are_marked_in_their_order, a_rule_that_decides_often_is_told_once,
         names_of_articles_are_shown_as_text,
         an_output_is_drawn_along_an_input, each_row_of_a_table_is_tied_to_its_rule,
         a_program_without_tables_has_no_panel_of_them]
