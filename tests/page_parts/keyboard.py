"""The keyboard alone: all that is used is come to by it, is seen to be, and does what it is for."""
import json

from .browser import CONTROL, SHIFT, Browser, Failure, Page
from .looking import WIDTHS
from .served import Office
from .working import FIGURES, INCLUDING, PARITY, SUMMARY, equal, shown

# What may be used at the moment; of the names of the panels the chosen one, from which arrows lead to the others.
USED = '''window.used = [...document.querySelectorAll('a, button, input, select, textarea, summary, [tabindex="0"]')]
    .filter((one) => one.checkVisibility() && !one.disabled && one.tabIndex >= 0), window.used.length'''
# The number of what the keys have come to, and what is wrong with how that is seen.
AT = '''(() => {
    const at = document.activeElement;
    const { outlineStyle, outlineWidth, boxShadow } = getComputedStyle(at.closest(".code") ?? at);
    const { top, bottom, left, right } = at.getBoundingClientRect();
    const isRinged = outlineStyle !== "none" && parseFloat(outlineWidth) >= 2 || boxShadow !== "none";
    const isSeen = bottom > 0 && top < innerHeight && right > 0 && left < innerWidth;
    const x = (Math.max(left, 0) + Math.min(right, innerWidth)) / 2;
    const y = (Math.max(top, 0) + Math.min(bottom, innerHeight)) / 2;
    const above = document.elementFromPoint(x, y);
    const isOnTop = at.contains(above) || above?.contains(at) || above?.closest(".code") === at.closest(".code");
    const wrong = !isSeen ? "not in sight" : !isRinged ? "without a ring" : !isOnTop ? "covered" : "";
    return [window.used.indexOf(at), wrong && `${wrong}: ${at.outerHTML.slice(0, 100)}`];
})()'''
MOST = 400


def tab_to(page: Page, selector: str, modifiers: int = 0) -> None:
    """Goes on by the tabulator until it has come to an element."""
    for _ in range(MOST):
        page.press('Tab', modifiers)
        if page.value('document.activeElement.matches(%s)' % json.dumps(selector)):
            return
    raise Failure('the keys do not come to %s' % selector)


def arrow_to(page: Page, name: str, key: str) -> None:
    """Goes on by an arrow among the names of the panels, until it has chosen one."""
    for _ in range(8):
        if page.value('document.activeElement.id') == 'tab-' + name:
            equal(page.value('document.querySelector("#panel-%s").checkVisibility()' % name), True, 'that the keys have chosen the panel')
            return
        page.press(key)
    raise Failure('the keys do not come to the panel %s' % name)


def all_is_come_to(page: Page, where: str) -> None:
    """Goes round the page once, and finds that each thing was come to and was seen to be."""
    page.value('document.activeElement.blur(), scrollTo(0, 0)')
    number, seen, wrong = page.value(USED), set(), set()
    for _ in range(4 * number + 8):
        page.press('Tab')
        at, trouble = page.value(AT)
        if at >= 0:
            seen.add(at)
            wrong |= {trouble} - {''}
        if len(seen) == number:
            break
    missing = [page.value('window.used[%d].outerHTML.slice(0, 100)' % k) for k in sorted(set(range(number)) - seen)]
    if missing or wrong:
        raise Failure('%s: not come to %s, seen wrongly %s' % (where, json.dumps(missing[:5]), json.dumps(sorted(wrong)[:5])))


def all_that_is_used_is_come_to(office: Office, browser: Browser) -> None:
    with shown(office, browser, 'us_child_tax_credit') as (page, served):
        page.wait('document.querySelector("#panel-run button.first")', 'the form')
        page.wait('document.querySelector("#panel-audit .verdicts")', 'the audit')
        page.wait('document.querySelector("#panel-cases li")', 'the cases')
        page.value('window.page.run.form.element.querySelector("fieldset.list > button").click()')
        page.value('window.page.run.run()')
        page.wait('document.querySelector("#panel-run .note")', 'what the run ends in')
        for width in WIDTHS:
            page.size(width, 900)
            panels = ('audit', 'run', 'picture', 'cases')
            for panel in ('law', 'faults', *panels) if width == WIDTHS[-1] else panels:
                page.value('window.page.tabs.show("%s")' % panel)
                all_is_come_to(page, '%s, %d wide' % (panel, width))


def a_form_is_filled_by_the_keyboard(office: Office, browser: Browser) -> None:
    with shown(office, browser, 'us_child_tax_credit') as (page, served):
        page.wait('document.querySelectorAll("#run-filled option").length > 1', 'the cases')
        page.press('Tab')
        equal(page.value('document.activeElement.className'), 'skip', 'what is come to first')
        page.press('Enter')
        tab_to(page, '[role="tab"]', SHIFT)
        page.press('End')
        arrow_to(page, 'run', 'ArrowLeft')
        tab_to(page, '#panel-run fieldset.list > button')
        page.press('Enter')
        equal(page.value('document.querySelectorAll("#panel-run .item").length'), 1, 'the number of elements')
        equal(page.value('document.activeElement.closest(".item") !== null'), True, 'that the new element is come to')
        tab_to(page, '.item > button')
        page.press('Space')
        equal(page.value('document.querySelectorAll("#panel-run .item").length'), 0, 'the number of elements')
        tab_to(page, '#run-filled', SHIFT)
        page.press('ArrowDown')
        page.wait(SUMMARY % 'run' + ' === "The outputs:"', 'the run of a case')
        tab_to(page, '#panel-run .keeping summary')
        page.press('Enter')
        tab_to(page, '#case-name')


def files_are_opened_and_saved_by_the_keyboard(office: Office, browser: Browser) -> None:
    with shown(office, browser, '', law_md=INCLUDING, figures_md=FIGURES) as (page, served):
        page.wait('document.querySelectorAll(".files button").length === 2', 'the two files')
        for width in WIDTHS:
            page.size(width, 900)
            page.value('window.page.tabs.show("%s")' % ('law' if width == WIDTHS[-1] else 'faults'))
            page.value('window.page.files.show("law.md")')
            all_is_come_to(page, 'two files, %d wide' % width)
        page.value('document.activeElement.blur()')
        tab_to(page, '.opens')
        page.press('Enter')
        equal(page.value('document.activeElement.textContent'), 'figures.md', 'the file that is shown')
        tab_to(page, '.file:not([hidden]) .code textarea')
        page.press('End', CONTROL)
        page.write('# twice\n')
        page.wait('!document.querySelector("#save").disabled')
        tab_to(page, '#save', SHIFT)
        page.press('Space')
        page.wait('document.querySelector("#saved").textContent === "Saved"')
        equal((served.law.parent / 'figures.md').read_text().count('# twice'), 1, 'the number of saved lines')


def an_audit_is_stopped_by_the_keyboard(office: Office, browser: Browser) -> None:
    with shown(office, browser, '', law_md=PARITY) as (page, served):
        page.value('window.page.tabs.show("audit")')
        page.wait('!document.querySelector("#panel-audit .running").hidden', 'that the audit runs')
        tab_to(page, '.running button')
        page.press('Enter')
        page.wait(SUMMARY % 'audit' + ' === "The audit was stopped."')
        page.press('Enter')
        page.wait('!document.querySelector("#panel-audit .running").hidden', 'that the audit runs again')


TESTS = [all_that_is_used_is_come_to, a_form_is_filled_by_the_keyboard, files_are_opened_and_saved_by_the_keyboard,
         an_audit_is_stopped_by_the_keyboard]
