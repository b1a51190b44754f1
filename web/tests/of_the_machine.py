"""Tests of the page: steps, breakpoints and long runs."""
import os
import platform
import subprocess
import sys
import time

from browser import CONTROL, SHIFT
from given import LOOP, SCREEN, STATE, TOP, Skipped, alone, arrived, built, check, example, same, shows, source, test, value


@test
def goes_back_to_a_mistake(given):
    page = given.open()
    example(page, "going back")
    page.key("F8")
    page.wait(f"{STATE} === 'HALT AFTER 19 STEPS'")
    same(page.text("#register-PC"), "000002")
    # The HALT itself is what is marked.
    same([page.text("#machine-place"), page.text("#code-lines .next .address")], ["HALT at 000000", "000000"])
    page.press_text("#registers button", "R4")
    page.wait(f"{STATE} === 'Step 17 changes R4 from 001014 to 001016.'")
    page.press_text("#registers button", "R4")
    page.wait(f"{STATE} === 'Step 16 changes R4 from 001024 to 001014.'")
    page.wait("document.querySelector('#editor-layer .next')")
    same(page.text("#editor-layer .next"), "\tADD\t(R4),R4")
    same(page.text("#code-lines .next .instruction"), "ADD    (R4),R4")
    same(page.text("#code-place"), "COUNT.MAC, line 34")
    same(page.see("document.querySelector('#step-number').value"), "15")
    # The word on the stack is 10 since step 12.
    page.press("#memory-words .stack")
    page.wait(f"{STATE} === 'Step 12 changes 001144 from 000011 to 000010.'")
    # On again to the end: the run is the same.
    page.key("F8")
    page.wait(f"{STATE} === 'HALT AFTER 19 STEPS'")
    page.press_text("#registers button", "R1")
    page.wait(f"{STATE} === 'Nothing has changed R1 in these 19 steps.'")
    # Step 18, a trap, clears the C that step 16 has set.
    page.press_text("#registers button", "PSW")
    page.wait(f"{STATE} === 'Step 18 changes PSW from 000001 to 000000.'")


@test
def each_step_is_that_of_the_simulator(given):
    """Registers and output at steps in no order, beside `m11 sim -n` with the same tape and input."""
    m11 = os.path.join(TOP, "dist", "m11")
    if not (os.path.exists(m11) and sys.platform == "linux" and platform.machine() == "x86_64"):
        raise Skipped("dist/m11 doesn't run here")
    page = given.open()
    given.browser.call("Browser.setDownloadBehavior", behavior="allow", downloadPath=given.folder)
    built(page)
    page.press("#tab-tape")
    page.press("#download-one")
    tape = os.path.join(given.folder, "GUESS.TAP")
    arrived(tape)
    page.press("#tab-run")
    page.key("F8")
    page.wait(f"{STATE}.startsWith('WAITS')")
    page.press("#screen")
    page.type("Ada\n50\n23\n")
    page.wait(f"{STATE} === 'HALT AFTER 1075 STEPS'")
    for steps in (1074, 3, 600, 599, 181, 1000, 1, 875, 180, 1075):
        page.press("#step-number")
        page.key("a", CONTROL)
        page.type(f"{steps}\n")
        page.wait(f"{STATE}.endsWith('AFTER {steps} {'STEP' if steps == 1 else 'STEPS'}')")
        done = subprocess.run([m11, "sim", f"-n{steps}", tape], input=b"Ada\n50\n23\n", capture_output=True, check=False)
        registers = " ".join(f"{name} {page.text('#register-' + name)}" for name in "R0 R1 R2 R3 R4 R5 SP PC PSW".split())
        same(registers, done.stderr.decode().split("\n")[1])
        page.see("new Promise(resolve => requestAnimationFrame(() => requestAnimationFrame(resolve)))")
        printed = page.see("[...document.querySelector('#screen-text').childNodes].filter(one => one.nodeType === 3).map(one => one.textContent).join('')")
        same(printed.replace("\n", ""), done.stdout.decode().replace("\n", ""))


@test
def goes_back_in_a_long_run(given):
    page = given.open()
    alone(page, "\t.TITLE\tP\nSTART:\tCLR\tR0\n\tMOV\t#5,R1\n1$:\tINC\tR0\n\tBR\t1$\n\t.END\tSTART\n")
    page.press("#options")
    page.press("#option-steps")
    page.key("a", CONTROL)
    page.type("2500000\n")
    page.wait("!document.querySelector('#options-dialog').open")
    page.key("F8")
    page.wait(f"{STATE} === 'LIMIT AFTER 2500000 STEPS'", 120)
    # Each odd step from the third on adds 1. The last steps are looked at one by one.
    page.press_text("#registers button", "R0")
    page.wait(f"{STATE} === 'Step 2499999 changes R0 from {1249998 % 65536:06o} to {1249999 % 65536:06o}.'", 60)
    # What changed long before is found by halving.
    page.press_text("#registers button", "R1")
    page.wait(f"{STATE}.startsWith('Step 2 changes R1 from 000000 to 000005.')", 60)
    check("may have been missed" in page.see(STATE), page.see(STATE))
    page.press("#step-number")
    page.key("a", CONTROL)
    page.type("1000001\n")
    page.wait(f"{STATE} === 'AFTER 1000001 STEPS'", 60)
    same(page.text("#register-R0"), f"{500000 % 65536:06o}")


@test
def steps_there_and_back(given):
    page = given.open()
    built(page)
    # Before a run memory is shown at the program's start.
    same([page.see("document.querySelector('#memory-at').value"), page.text("#memory-words .asked")], ["PC", "012706"])
    page.press("#memory-at")
    page.key("a", CONTROL)
    page.type("start+6\n")
    same(page.see("[...document.querySelectorAll('#memory-words [aria-current]')].map(word => word.title.slice(0, 14))"), ["001006 START+6"])
    page.key("F7")
    page.wait(f"{STATE} === 'AFTER 1 STEP'")
    same(page.text("#register-SP"), "001676")
    page.press("#step")
    page.wait(f"{STATE} === 'AFTER 2 STEPS'")
    # The third instruction is a call; the program prints in it.
    page.press("#over")
    page.wait(f"{STATE}.startsWith('AFTER') && document.querySelector('#register-PC').textContent === '001014'")
    shows(page, lambda text: text.strip() == "Who are you?")
    over = int(page.see("document.querySelector('#step-number').value"))
    check(over > 20, f"a call in {over} steps")
    page.press("#back")
    page.wait(f"{STATE} === 'AFTER {over - 1} STEPS'")
    page.key("F7", SHIFT)
    page.wait(f"{STATE} === 'AFTER {over - 2} STEPS'")
    page.key("F10")
    page.wait(f"{STATE} === 'AFTER {over - 1} STEPS'")
    page.press("#step-number")
    page.key("a", CONTROL)
    page.type("2\n")
    page.wait(f"{STATE} === 'AFTER 2 STEPS'")
    same(page.text("#register-PC"), "001010")
    page.wait(f"{SCREEN}.trim() === ''")
    page.press("#restart")
    page.wait(f"{STATE} === 'Loaded: no step was made yet.'")


@test
def stops_at_breakpoints(given):
    page = given.open()
    built(page)
    # A press on the number of a line: INC TRIES.
    line = 1 + value(page).split("\n").index("\tINC\tTRIES")
    page.see(f"document.querySelector('#editor .source:not([hidden])').scrollTop = {20 * line - 200}")
    page.wait(f"(top => top > 100 && top < 500)(document.querySelector('[data-line=\"{line}\"]')?.getBoundingClientRect().top)")
    page.press(f"[data-line=\"{line}\"]")
    page.wait(f"document.querySelector('[data-line=\"{line}\"]').classList.contains('break')")
    page.key("F8")
    page.wait(f"{STATE}.startsWith('WAITS')")
    # It waits in the other module.
    same(page.text("#code-place"), "CONSOL.MAC, line 15")
    page.press("#screen")
    page.type("Ada\n50\n23\n")
    page.wait(f"{STATE} === 'Stopped at breakpoint 001222 after 619 steps'")
    same(page.text("#register-PC"), "001222")
    same(page.text("#code-lines .next .dot"), "●")
    page.key("F8")
    page.wait(f"{STATE} === 'Stopped at breakpoint 001222 after 875 steps'")
    same(page.text("#console-state"), "Stopped at breakpoint 001222 after 875 steps")
    # Arrows go through the list.
    page.see("document.querySelector('#code-lines .next .dot').focus()")
    page.key("ArrowDown")
    same(page.see("document.activeElement === document.querySelector('#code-lines .next + li .dot')"), True)
    page.key("ArrowUp")
    same(page.see("document.activeElement === document.querySelector('#code-lines .next .dot')"), True)
    # The same place by the machine's list, and another one.
    page.press("#code-lines .next .dot")
    page.wait("document.querySelectorAll('.number.break').length === 0")
    page.press("#code-lines li.next + li .dot")
    page.key("F8")
    page.wait(f"/^Stopped at breakpoint 0012\\d\\d after 876 steps$/.test({STATE})")
    page.press("#code-lines .next .dot")
    page.key("F8")
    page.wait(f"{STATE} === 'HALT AFTER 1075 STEPS'")


@test
def breakpoints_leave_the_program_as_it_is(given):
    """A program that looks at its own words, also where a breakpoint is."""
    page = given.open()
    alone(page, "\t.TITLE\tP\nSTART:\tNOP\n\tTST\tHERE\n\tBEQ\tBAD\n\tMOV\tHERE,R0\nHERE:\tINC\tR1\n\tMOV\tHERE,R2\n\tHALT\nBAD:\tBR\tBAD\n\t.END\tSTART\n")
    page.press("[data-line='6']")
    page.key("F8")
    page.wait(f"/^Stopped at breakpoint 0010\\d\\d after 4 steps$/.test({STATE})")
    same(page.text("#register-R0"), "005201")
    page.key("F8")
    page.wait(f"{STATE} === 'HALT AFTER 7 STEPS'")
    same([page.text(f"#register-{name}") for name in ("R1", "R2")], ["000001", "005201"])


@test
def breakpoints_move_with_their_lines(given):
    page = given.open()
    page.press("[data-line='8']")
    page.wait("document.querySelector('[data-line=\"8\"]').classList.contains('break')")
    page.press("#editor .source:not([hidden])")
    page.key("Home", CONTROL)
    page.type("\n\n")
    page.wait("document.querySelector('[data-line=\"10\"]').classList.contains('break')")
    page.key("z", CONTROL)
    page.wait("document.querySelector('.number.break').dataset.line !== '10'")
    page.see("document.querySelector('#tabs [aria-selected=true]').dispatchEvent(new MouseEvent('dblclick', { bubbles: true }))")
    page.key("a", CONTROL)
    page.type("GAME.MAC\n")
    page.wait("document.querySelector('#tabs [aria-selected=true]').textContent === 'GAME.MAC' && document.querySelectorAll('.number.break').length === 1")


@test
def a_program_without_end_is_stopped(given):
    page = given.open()
    alone(page, LOOP)
    page.press("#run")
    page.wait(f"{STATE} === 'LIMIT AFTER 1000000 STEPS'", 60)
    same(page.text("#machine-place"), "F8 goes on")
    page.press("#options")
    page.press("#option-steps")
    page.key("a", CONTROL)
    page.type("1000000001")
    page.press("#options-keep")
    check("0 to 1000000000" in page.text("#options-fault"), page.text("#options-fault"))
    page.key("Backspace")
    page.press("#option-steps")
    page.key("a", CONTROL)
    page.type("1000000000")
    page.press("#options-keep")
    page.press("#run")
    page.wait(f"{STATE}.startsWith('Runs: ') && document.querySelector('#stop').disabled === false")
    # While it runs the page answers.
    begun = time.monotonic()
    page.press("#tab-map")
    same(page.see("document.querySelector('#panel-text').hidden"), False)
    page.press("#tab-run")
    check(time.monotonic() - begun < 2, "the page answers while a program runs")
    page.key("F8", SHIFT)
    page.wait(f"{STATE}.startsWith('STOPPED AFTER ')")
    steps = page.see(STATE)
    time.sleep(0.3)
    same(page.see(STATE), steps)
    page.press("#step")
    page.wait(f"{STATE} === 'AFTER {int(steps.split()[2]) + 1} STEPS'")


@test
def long_outputs_do_not_freeze_the_page(given):
    page = given.open()
    alone(page, "\t.TITLE\tP\nSTART:\tINC\tR0\n\tMOVB\tR0,@#177566\n\tBR\tSTART\n\t.END\tSTART\n")
    page.key("F8")
    page.wait(f"{STATE}.startsWith('Runs')")
    begun = time.monotonic()
    page.press("#tab-map")
    page.press("#tab-run")
    check(time.monotonic() - begun < 3, "the page answers while a program prints")
    page.wait(f"{STATE} === 'LIMIT AFTER 1000000 STEPS'", 60)
    check(page.see(f"{SCREEN}.length") < 200000, "the screen has an end")


@test
def steps_past_a_halt_are_told_apart(given):
    """The trace ends at the HALT; a last change is found past it too."""
    page = given.open()
    alone(page, "\t.TITLE\tP\nSTART:\tINC\tR0\n\tHALT\n\tMOV\t#7,R1\n\tNOP\n\t.END\tSTART\n")
    page.key("F8")
    page.wait(f"{STATE} === 'HALT AFTER 2 STEPS'")
    # A number past the end leads to the end.
    page.press("#step-number")
    page.key("a", CONTROL)
    page.type("99\n")
    page.wait("document.querySelector('#step-number').value === '2'")
    same(page.see(STATE), "HALT AFTER 2 STEPS")
    page.key("F7")
    page.key("F7")
    page.wait(f"{STATE} === 'AFTER 4 STEPS'")
    # What was made past the HALT is reached again.
    for steps in (1, 4):
        page.press("#step-number")
        page.key("a", CONTROL)
        page.type(f"{steps}\n")
        page.wait(f"{STATE} === 'AFTER {steps} {'STEP' if steps == 1 else 'STEPS'}'")
    page.press("#tab-trace")
    same(page.text("#shown").count("\n"), 1)
    check(page.text("#panel-note").startswith("Steps 1 to 2:") and "to 4 were made past it" in page.text("#panel-note"), page.text("#panel-note"))
    page.press("#tab-run")
    page.press_text("#registers button", "R1")
    page.wait(f"{STATE} === 'Step 3 changes R1 from 000000 to 000007.'")


@test
def the_focus_stays_where_it_is_wanted(given):
    page = given.open()
    built(page)
    focus = "document.activeElement.id"
    # A run that was begun from the machine's buttons: keys go to the program when it waits.
    page.press("#step")
    page.wait(f"{STATE} === 'AFTER 1 STEP'")
    page.press("#restart")
    page.key("F8")
    page.wait(f"{STATE}.startsWith('WAITS') && {focus} === 'screen'")
    page.type("Ada\n50\n23\n")
    page.wait(f"{STATE} === 'HALT AFTER 1075 STEPS'")
    # A word of the stack, which moves in what is shown of memory.
    page.see("document.querySelector('#memory-words .stack').parentElement.querySelectorAll('.word')[2].focus()")
    address = page.see("document.activeElement.title.slice(0, 6)")
    page.key("Enter")
    page.wait(f"{STATE}.includes(' changes {address} from ')")
    page.wait(f"document.activeElement.title.startsWith('{address}')")
    # A role in the list of files.
    page.press("#files")
    page.see("document.querySelector('[aria-label=\"What CONSOL.MAC is for\"]').focus()")
    page.type("n")
    same(page.see("document.activeElement.getAttribute('aria-label')"), "What CONSOL.MAC is for")
    page.press("[aria-label='Move up CONSOL.MAC']")
    same(page.see("document.activeElement.getAttribute('aria-label')"), "Move down CONSOL.MAC")


@test
def a_run_that_waits_gives_way_to_new_files(given):
    page = given.open()
    page.key("F8")
    page.wait(f"{STATE}.startsWith('WAITS')")
    source(page, value(page).replace("Who are you?", "Your name?"))
    page.wait("!document.querySelector('#run').disabled")
    page.key("F8")
    page.wait(f"{STATE}.startsWith('WAITS') && document.querySelector('#stale').hidden")
    shows(page, lambda text: text.strip() == "Your name?")
