"""Tests of the page: its editor, its keys, its looks, and texts that would be markup."""
import json

from browser import CONTROL, SHIFT
from given import HOSTILE_NAME, MARKUP, SCREEN, STATE, built, check, same, selected, shows, source, test, value


@test
def the_editor_has_the_usual_keys(given):
    page = given.open()
    source(page, "")
    page.type("A:\tCLR\tR0\n\tINC R0\nNOP")
    same(value(page), "A:\tCLR\tR0\n\tINC R0\n\tNOP")
    page.key("a", CONTROL)
    page.key("Tab")
    same(value(page), "\tA:\tCLR\tR0\n\t\tINC R0\n\t\tNOP")
    page.key("Tab", SHIFT)
    same(value(page), "A:\tCLR\tR0\n\tINC R0\n\tNOP")
    page.key("z", CONTROL)
    same(value(page), "\tA:\tCLR\tR0\n\t\tINC R0\n\t\tNOP")
    page.key("f", CONTROL)
    page.type("r0")
    same(page.text("#find-count"), "1 of 2")
    page.key("Enter")
    same(page.text("#find-count"), "2 of 2")
    page.wait("document.querySelector('.found')?.getBoundingClientRect().width > 10")
    page.wait("""(() => { const mark = document.querySelector('.found').getBoundingClientRect(), range = document.createRange();
        const place = [...document.querySelectorAll('#editor-layer .is-register')].at(-1); range.selectNodeContents(place);
        const box = range.getBoundingClientRect(); return Math.abs(mark.left - box.left) < 1 && Math.abs(mark.width - box.width) < 1; })()""")
    page.key("Escape")
    same(selected(page), "R0")
    page.wait("document.querySelector('#editor-layer .is-instruction')")
    same(page.see("[...document.querySelectorAll('#editor-layer .is-instruction')].map(part => part.textContent)"), ["CLR", "INC", "NOP"])
    same(page.see("document.querySelectorAll('.number').length"), 3)
    page.key("Escape")
    page.key("Tab")
    check(not page.see("document.activeElement.classList.contains('source')"), "Tab leaves after Escape")
    # Who comes back by the keyboard is told how to leave, and sees the caret.
    source(page, "\tNOP\n" * 200)
    page.see("document.querySelector('#editor .source:not([hidden])').scrollTop = 0")
    same(page.see("document.querySelector('#editor-hint').hidden"), True)
    page.key("Escape")
    page.key("Tab")
    page.key("Tab", SHIFT)
    page.wait("document.activeElement.classList.contains('source') && document.activeElement.scrollTop > 3000")
    same(page.text("#editor-hint"), "Esc, then Tab leaves the editor")
    same(page.see("document.querySelector('#editor-hint').hidden"), False)
    page.type("N")
    same(page.see("document.querySelector('#editor-hint').hidden"), True)


@test
def all_is_reached_by_keys(given):
    page = given.open()
    built(page)
    page.see("document.activeElement.blur()")
    seen = set()
    for _ in range(120):
        page.key("Tab")
        seen.add(page.see("document.activeElement.id || document.activeElement.className || document.activeElement.tagName"))
        if page.see("document.activeElement.classList.contains('source')"):
            page.key("Escape")
    for wanted in ("build", "run", "examples", "files", "share", "options", "about", "theme", "new", "source", "screen", "line-text", "step", "over", "restart",
                   "step-number", "memory-at", "register", "dot", "tab-run"):
        check(any(wanted in one.split() for one in seen), f"{wanted} isn't reached: {sorted(seen)}")
    unnamed = page.see("""[...document.querySelectorAll('button, input, select, textarea, [role=tab], [tabindex="0"]')].filter(one => one.offsetParent)
        .filter(one => !one.textContent.trim() && !one.getAttribute('aria-label') && !one.labels?.length && !one.title).map(one => one.outerHTML.slice(0, 80))""")
    same(unnamed, [])
    page.see("document.querySelector('#tab-run').focus()")
    page.key("ArrowRight")
    same(page.see("document.activeElement.id"), "tab-listing")
    page.key("End")
    same(page.see("document.activeElement.id"), "tab-trace")


@test
def a_phone_shows_one_part_at_a_time(given):
    page = given.open(size=(375, 812))
    for area, shown, hidden in [("source", "#editor", "#screen"), ("console", "#screen", "#registers"), ("machine", "#step", "#editor"),
                                ("results", "#panel-text", "#screen")]:
        page.press(f"#areas [data-area={area}]")
        check(page.see(f"document.querySelector('{shown}').getBoundingClientRect().width > 300 || '{shown}' === '#step'"), f"{shown} is seen")
        same(page.see(f"document.querySelector('{hidden}').getBoundingClientRect().width"), 0)
        width = page.see("Math.max(document.documentElement.scrollWidth, document.body.scrollWidth)")
        check(width <= 375, f"{area} is {width} wide")
    page.press("#build")
    page.press("#run")
    page.wait(f"{STATE}.startsWith('WAITS')")
    same(page.see("document.body.dataset.area"), "console")
    page.press("#line-text")
    page.type("Ada\n")
    page.wait(f"{SCREEN}.includes('Your guess?')")
    page.press("#areas [data-area=machine]")
    check(page.see("document.documentElement.scrollWidth") <= 375, "the machine isn't too wide")
    # A breakpoint that is set while the program waits: the console says where it has stopped.
    page.press("#code-lines li.next ~ li .dot:not(:disabled)")
    page.press("#areas [data-area=console]")
    page.press("#line-text")
    page.type("50\n")
    page.wait("/^Stopped at breakpoint [0-7]{6} after [0-9]+ steps$/.test(document.querySelector('#console-state').textContent)")
    page.press("#areas [data-area=machine]")
    for button in ("examples", "files", "options", "about"):
        page.press(f"#{button}")
        check(page.see("document.documentElement.scrollWidth") <= 375, f"{button} isn't too wide")
        page.key("Escape")


@test
def fingers_are_shown_no_keys(given):
    page = given.open(size=(375, 812))
    page.call("Emulation.setTouchEmulationEnabled", enabled=True)
    page.reload()
    same(page.text("#messages-list"), "Build assembles and links the files.")
    page.press("#areas [data-area=results]")
    same(page.text("#panel-note"), "There is none yet: Build assembles and links.")
    page.press("#about")
    shown = page.see("document.querySelector('#about-dialog').innerText")
    check("F8" not in shown and "F9" not in shown and "Step over" in shown, shown)


@test
def what_has_changed_stays_coloured(given):
    page = given.open(size=(375, 812))
    page.press("#build")
    page.press("#areas [data-area=machine]")
    page.press("#step")
    page.wait(f"{STATE} === 'AFTER 1 STEP'")
    page.press("#areas [data-area=console]")
    page.press("#areas [data-area=machine]")
    same(page.see("[...document.querySelectorAll('.value.changed')].map(one => one.id)"), ["register-SP", "register-PC"])


@test
def colours_follow_the_system_and_the_switch(given):
    page = given.open(scheme="dark")
    back = "getComputedStyle(document.body).backgroundColor"
    dark = page.see(back)
    page.press("#theme")
    light = page.see(back)
    check(light != dark, "Light is another colour")
    page.press("#theme")
    same([page.text("#theme-word"), page.see(back)], ["Dark", dark])
    page.press("#theme")
    page.call("Emulation.setEmulatedMedia", features=[{"name": "prefers-color-scheme", "value": "light"}])
    page.wait(f"{back} === '{light}'")
    same(page.text("#theme-word"), "Auto")


@test
def hostile_texts_are_only_texts(given):
    page = given.open()
    page.press("#new")
    page.key("a", CONTROL)
    page.call("Input.insertText", text=HOSTILE_NAME)
    page.key("Enter")
    page.wait(f"document.querySelector('#tabs [aria-selected=true]').textContent === {json.dumps(HOSTILE_NAME)}")
    source(page, f"{MARKUP}\n\t.TITLE\t{MARKUP}\n{MARKUP}=5\n\t.ASCII\t/{MARKUP}/\n\t.PRINT\t<{MARKUP}>\n\t.END\n")
    page.key("F9")
    page.wait("document.querySelectorAll('#messages-list .error').length > 1")
    check(HOSTILE_NAME in page.text("#messages-list"), page.text("#messages-list"))
    check("<img src=x" in page.text("#messages-list code"), page.text("#messages-list code"))
    page.press("#files")
    check(HOSTILE_NAME in page.text("#files-list"), page.text("#files-list"))
    page.see("document.querySelectorAll('.actions [aria-label^=Rename]')[2].dataset.pressed = 'this'")
    page.press("[data-pressed=this]")
    check(HOSTILE_NAME in page.text("#name-title"), page.text("#name-title"))
    page.key("Escape")
    page.key("Escape")
    for panel in ("listing", "dump"):
        page.press(f"#tab-{panel}")
    page.press("#tab-run")
    same(page.see("document.querySelectorAll('img').length"), 0)
    same(page.see("document.querySelectorAll('script').length"), 2)
    page.reload()
    check(HOSTILE_NAME in page.text("#tabs"), page.text("#tabs"))
    page.harmless()
    # A program that prints markup.
    source(page, f"\t.TITLE\tP\nSTART:\tMOV\t#T,R1\n1$:\tMOVB\t(R1)+,@#177566\n\tTSTB\t(R1)\n\tBNE\t1$\n\tHALT\nT:\t.ASCIZ\t~{MARKUP}~\n\t.END\tSTART\n")
    page.press("#files")
    for name in ("GUESS.MAC", "CONSOL.MAC"):
        page.press(f"[aria-label='Delete {name}']")
        page.press("#confirm-yes")
    page.press("#files-dialog [data-close]")
    page.key("F8")
    page.wait(f"{SCREEN}.includes('PSW')")
    shows(page, lambda text: text.startswith(MARKUP))
    page.harmless()
