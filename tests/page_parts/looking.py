"""What is seen: at two widths, in the light and in the dark, with the contrast of WCAG AA and with names for all that is used."""
import json, pathlib

from .browser import Browser, Failure
from .served import Office
from .working import FIGURES, INCLUDING, PARITY, put_behind, shown

WIDTHS = (1280, 400)
HERE = pathlib.Path(__file__).resolve().parent
FAINT, WRONG = (HERE / 'faint.js').read_text(), (HERE / 'wrong.js').read_text()


def looked_at(office: Office, page, name: str, panel: str) -> None:
    """Looks at a panel, or at the law, which is one where the page is narrow."""
    for is_dark in (False, True):
        for width in WIDTHS:
            page.size(width, 900, is_dark)
            page.value('window.page.tabs.show("%s")' % ('faults' if panel == 'law' and width == WIDTHS[0] else panel))
            seen = page.value(FAINT) + page.value(WRONG)
            if seen:
                raise Failure('%s, %d wide%s: %s' % (name, width, ', dark' if is_dark else '', json.dumps(seen[:8], ensure_ascii=False)))
            if not is_dark or width == 1280:
                office.picture(page, '%s_%d%s' % (name, width, '_dark' if is_dark else ''))


def each_state_is_seen_well(office: Office, browser: Browser) -> None:
    with shown(office, browser, 'heating_subsidy_draft') as (page, served):
        page.wait('document.querySelectorAll("#panel-audit .place").length === 2', 'the two rules')
        looked_at(office, page, 'accepted', 'law')
        page.value('window.page.tabs.show("audit")')
        page.value('document.querySelector("#panel-audit details").open = true')
        looked_at(office, page, 'audit', 'audit')
        page.click('#panel-audit .shows button')
        page.wait('document.querySelector("#panel-run .note")', 'what the run ends in')
        page.value('document.querySelector("#panel-run .keeping").open = true')
        looked_at(office, page, 'run', 'run')
        page.value('window.page.tabs.show("cases")')
        page.click('#panel-cases p button')
        page.wait('document.querySelector("#panel-cases .badge[data-kind=good]")', 'the cases')
        page.value('document.querySelector("#panel-cases details").open = true')
        looked_at(office, page, 'cases', 'cases')
        page.value('window.page.tabs.show("law")')
        put_behind(page, 'consequence equals')
        page.press('Backspace')
        page.wait('document.querySelector("#panel-faults .note")', 'the fault')
        page.wait('document.querySelector("#panel-faults").textContent.includes("here may stand")', 'its words')
        looked_at(office, page, 'law_with_a_fault', 'law')
        looked_at(office, page, 'fault', 'faults')


def a_form_of_each_type_is_seen_well(office: Office, browser: Browser) -> None:
    with shown(office, browser, 'us_child_tax_credit') as (page, served):
        page.wait('document.querySelector("#panel-run button.first")', 'the form')
        page.value('window.page.tabs.show("run")')
        page.click('#panel-run fieldset.list > button')
        page.wait('document.querySelector("#panel-run .item")', 'an element of the list')
        page.click('#panel-run button.first')
        page.wait('document.querySelector("#panel-run .wrong")', 'what is not taken')
        looked_at(office, page, 'form', 'run')


def an_audit_that_runs_and_one_that_was_stopped_are_seen_well(office: Office, browser: Browser) -> None:
    with shown(office, browser, '', law_md=PARITY) as (page, served):
        page.value('window.page.tabs.show("audit")')
        page.wait('!document.querySelector("#panel-audit .running").hidden', 'that the audit runs')
        looked_at(office, page, 'audit_running', 'audit')
        page.click('#panel-audit .running button')
        page.wait('window.page.audit.again?.isConnected', 'that it was stopped')
        looked_at(office, page, 'audit_stopped', 'audit')


def a_law_of_two_files_is_seen_well(office: Office, browser: Browser) -> None:
    with shown(office, browser, '', law_md=INCLUDING, figures_md=FIGURES.replace('equals', 'equal')) as (page, served):
        page.wait('document.querySelector(".files .count")', 'the file with a fault')
        page.wait('document.querySelector("#panel-faults").textContent.includes("here may stand")', 'its words')
        looked_at(office, page, 'law_of_two_files', 'law')
        page.value('window.page.files.show("figures.md")')
        looked_at(office, page, 'included_file', 'law')
        looked_at(office, page, 'fault_of_an_included_file', 'faults')


TESTS = [each_state_is_seen_well, a_form_of_each_type_is_seen_well, an_audit_that_runs_and_one_that_was_stopped_are_seen_well,
         a_law_of_two_files_is_seen_well]
