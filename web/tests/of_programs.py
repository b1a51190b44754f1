"""Tests of the page: programs are built, run and shown."""
import re

from browser import CONTROL
from given import GAME, SCREEN, STATE, alone, built, check, example, same, selected, shows, source, test, value


@test
def plays_the_game(given):
    page = given.open()
    print(f"    the page was ready after {page.see('Math.round(performance.getEntriesByName(`ready`)[0].startTime)')} ms")
    page.press("#build")
    page.wait("document.querySelector('#messages-list').textContent.includes('GUESS.TAP is linked')")
    same(page.text("#messages-list"), "GUESS.MAC: ERRORS DETECTED: 0 CONSOL.MAC: ERRORS DETECTED: 0 GUESS.TAP is linked. ")
    page.press("#run")
    page.wait(f"{STATE}.startsWith('WAITS FOR A KEY')")
    page.type("Ada\n50\n25\n12\n20\n23\n")
    page.wait(f"{STATE} === 'HALT AFTER 1827 STEPS'")
    page.wait(f"{SCREEN}.includes('PSW')")
    shows(page, lambda text: text == GAME)


@test
def a_message_leads_to_its_line(given):
    page = given.open()
    example(page, "table of primes")
    page.wait("document.querySelector('#messages-list').textContent.includes('is linked')")
    source(page, value(page).replace("#TEXT,R0", "#TEXT R0").replace("\t.END\t", "\tBR\tNOWHERE\n\t.END\t"))
    page.key("F9")
    page.wait("document.querySelectorAll('#messages-list .error').length > 1")
    messages = page.text("#messages-list")
    for words in ("PRIMES.MAC:36", "A a value, an", "Q something", "here as MOV\t#EOL R0", "is missing, or left over", "branch out of reach"):
        check(words in messages, f"{words} isn't in {messages}")
    same(page.see("[...document.querySelectorAll('#messages-list code')].at(-1).textContent"), "\tBR\tNOWHERE")
    page.see("document.querySelector('#editor .source:not([hidden])').scrollTop = 0")
    page.press_text("#messages-list .leads", "BR\tNOWHERE")
    check("NOWHERE" in selected(page), selected(page))
    check(page.see("document.activeElement.classList.contains('source')"), "the editor has the focus")
    same(page.see("document.querySelectorAll('#editor-layer .flagged').length > 0"), True)
    check("Nothing is loaded" in page.text("#machine-state"), page.text("#machine-state"))
    page.press("#tab-tape")
    same(page.text("#panel-note"), "The last build had mistakes: see the messages.")
    same(page.see("document.querySelector('#which').hidden"), True)


@test
def a_message_says_what_to_do(given):
    page = given.open()
    alone(page, "\t.MCALL\t.PRINT\n\t.INCLUDE\t\"A.MAC\"\n\t.END\n")
    page.key("F9")
    page.wait("document.querySelectorAll('#messages-list .advice').length === 2")
    check("role “before each module”" in page.text("#messages-list .advice"), page.text("#messages-list"))


@test
def a_notice_goes_with_its_reason(given):
    page = given.open()
    page.press("#line-text")
    page.type("Ada\n")
    page.wait("document.querySelector('#notice-text').textContent.startsWith('No program is loaded')")
    # The line stays until it is taken.
    same(page.see("document.querySelector('#line-text').value"), "Ada")
    built(page)
    same(page.see("document.querySelector('#notice').hidden"), True)
    page.press("#line-text")
    page.key("Enter")
    shows(page, lambda text: "I have a number" in text)
    same(page.see("document.querySelector('#line-text').value"), "")


@test
def an_undefined_global_leads_to_its_use(given):
    page = given.open()
    page.press_text("#tabs [role=tab]", "CONSOL.MAC")
    source(page, value(page).replace("PUTN::", "PUTM::"))
    page.key("Enter", CONTROL)
    page.wait("document.querySelector('#messages-list').textContent.includes('UNDEFINED GLOBAL PUTN')")
    page.press_text("#messages-list .leads", "UNDEFINED GLOBAL PUTN")
    check("PUTN" in selected(page), selected(page))


@test
def the_views_show_what_was_made(given):
    page = given.open()
    built(page)
    for panel, words in [("listing", "SYMBOL TABLE"), ("map", "GETLN  001676 CONSOL"), ("dump", "MODULE    GUESS"), ("tape", "JSR    PC,PUTS\t;START+10")]:
        page.press(f"#tab-{panel}")
        check(words in page.text("#shown"), f"{words} isn't in {panel}")
    page.press("#tab-listing")
    page.see("document.querySelector('#which').focus()")
    page.type("C")
    check("PUTN::" in page.text("#shown"), "the listing of the other module")
    page.press("#tab-run")
    page.key("F8")
    page.wait(f"{STATE}.startsWith('WAITS')")
    page.press("#tab-trace")
    check(re.search(r"1  001000 START +MOV +#1676,SP +SP 001676", page.text("#shown")), page.text("#shown")[:300])


@test
def input_comes_from_lines_pastes_and_files(given):
    page = given.open()
    example(page, "lines in upper case")
    page.wait("document.querySelector('#messages-list').textContent.includes('is linked')")
    page.key("F8")
    page.wait(f"{STATE}.startsWith('WAITS')")
    page.press("#line-text")
    page.type("a line\n")
    page.wait(f"{SCREEN}.includes('1: A LINE')")
    page.press("#screen")
    page.see("""(() => { const data = new DataTransfer(); data.setData('text', 'one\\r\\ntwo\\n');
        document.activeElement.dispatchEvent(new ClipboardEvent('paste', { clipboardData: data, bubbles: true, cancelable: true })); })()""")
    page.wait(f"{SCREEN}.includes('3: TWO')")
    page.give_files("#pick-input", [given.file("in.txt", "from a file")])
    page.wait(f"{SCREEN}.includes('from a file')")
    page.press("#screen")
    page.key("d", CONTROL)
    # As many steps as `m11 sim` makes with these lines, each ended by a line feed alone.
    page.wait(f"{SCREEN}.includes('4: FROM A FILE') && {STATE} === 'HALT AFTER 818 STEPS'")
    shows(page, lambda text: "4 lines" in text)


@test
def control_characters_are_shown(given):
    page = given.open()
    text = "\t.TITLE\tP\nSTART:\tMOV\t#TEXT,R1\n1$:\tMOVB\t(R1)+,R0\n\tBEQ\t2$\n\tMOVB\tR0,@#177566\n\tBR\t1$\n2$:\tTSTB\t@#177560\n\tBPL\t3$\n" \
           "\tMOVB\t@#177562,R0\n\tCMP\tR0,#33\n\tBNE\t2$\n3$:\tHALT\nTEXT:\t.ASCII\t\"ABC\"<15>\"X\"<12>\"12\"<10>\"3\"<11>\"T\"<7><33>\"[31m\"<1><177><201>" \
           "\"<b>\"\n\t.BYTE\t0\n\t.END\tSTART\n"
    alone(page, text)
    page.key("F8")
    page.wait(f"{STATE}.startsWith('WAITS')")
    page.wait(f"{SCREEN}.includes('<b>')")
    shows(page, lambda text: text.rstrip() == "XBC\n13      T^[[31m^A^?\\201<b>")
    check(page.see("document.querySelector('#screen').classList.contains('flash')"), "the bell flashes")
    page.press("#screen")
    page.key("a", CONTROL)
    page.key("Escape")
    page.wait(f"{STATE}.startsWith('HALT AFTER')")
    shows(page, lambda text: "^A^[" in text.split("<b>")[1])


@test
def objects_and_tapes_run_without_sources(given):
    page = given.open()
    example(page, "linking what is assembled")
    page.key("F8")
    page.wait(f"{STATE} === 'HALT AFTER 28 STEPS'")
    shows(page, lambda text: text.startswith("HI\n"))
    example(page, "A tape alone")
    page.wait("document.querySelector('#messages-list').textContent.includes('ECHO.TAP is a tape')")
    page.key("F8")
    page.wait(f"{STATE}.startsWith('WAITS')")
    same(page.text("#code-lines .next .words"), "105737 177560")
    same(page.text("#code-lines .next .instruction"), "TSTB   @#177560")
    page.give_files("#pick-files", [given.file("BAD.OBJ", b"\1\0nonsense")])
    page.press("#files")
    page.wait("document.querySelector('#files-list').textContent.includes('BAD.OBJ')")
    page.press("#files-dialog [data-close]")
    page.key("F9")
    page.wait("document.querySelector('#messages-list').textContent.includes('?M11 LINK')")


@test
def each_example_builds(given):
    page = given.open()
    count = page.see("document.querySelectorAll('.example').length")
    check(count >= 8, f"{count} examples")
    for number in range(count):
        page.press("#examples")
        page.press(f"#examples-list li:nth-child({number + 1}) .example")
        page.wait(f"{STATE} === 'Loaded: no step was made yet.'")
        same(page.see("document.querySelectorAll('#messages-list .error').length"), 0)


@test
def the_start_that_counts_is_told(given):
    page = given.open()
    page.press("#new")
    page.key("a", CONTROL)
    page.type("HELLO.MAC\n")
    page.wait("document.querySelector('#tabs [aria-selected=true]').textContent === 'HELLO.MAC'")
    told = "The program starts in GUESS.MAC; the start that HELLO.MAC gives isn’t used."
    built(page)
    check(told in page.text("#messages-list"), page.text("#messages-list"))
    page.press("#files")
    page.see("document.querySelector('[aria-label=\"What GUESS.MAC is for\"]').focus()")
    page.type("n")
    page.press("#files-dialog [data-close]")
    same(page.see("[...document.querySelectorAll('#tabs .apart')].map(tab => tab.title)"), ["GUESS.MAC is not built: see Files"])
    built(page)
    check(told not in page.text("#messages-list"), page.text("#messages-list"))
    # A program of its own, after a question, since HELLO.MAC is nobody else's.
    example(page, "A new program")
    page.press("#confirm-yes")
    page.wait("document.querySelector('#tabs').textContent === 'HELLO.MAC'")
    page.key("F8")
    page.wait(f"{STATE}.startsWith('HALT')")
    shows(page, lambda text: text.startswith("Hello!\n"))


@test
def options_are_those_of_the_commands(given):
    page = given.open()
    page.press("#options")
    page.press("#option-bottom")
    page.type("2000")
    page.press("#option-words")
    page.type("4096")
    page.press("#options-keep")
    built(page)
    same(page.text("#register-PC"), "002000")
    page.press("#options")
    page.press("#option-start")
    page.type("3001")
    page.press("#options-keep")
    check("even" in page.text("#options-fault"), page.text("#options-fault"))
    page.key("Backspace")
    page.press("#option-start")
    page.key("a", CONTROL)
    page.type("2004\n")
    page.wait("!document.querySelector('#options-dialog').open")
    built(page)
    same(page.text("#register-PC"), "002004")
    page.press("#options")
    page.press("#option-bottom")
    page.key("a", CONTROL)
    page.type("20000\n")
    page.key("F9")
    page.wait("document.querySelector('#messages-list').textContent.includes('?M11 SIM 10 OutsideMemory')")
