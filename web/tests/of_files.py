"""Tests of the page: files, where they are kept, and what is refused."""
import json
import os
import time
import zipfile

import browser
from browser import CONTROL
from given import LOOP, MARKUP, STATE, arrived, built, check, same, source, test, value


@test
def a_reload_keeps_the_files(given):
    page = given.open()
    source(page, LOOP)
    page.press("#new")
    page.key("a", CONTROL)
    page.type("MINE.MAC\n")
    page.wait("document.querySelector('#tabs [aria-selected=true]').textContent === 'MINE.MAC'")
    source(page, "; mine\n")
    page.press("[data-line='1']")
    page.press("#theme")
    page.press("#theme")
    page.reload()
    same(page.see("[...document.querySelectorAll('#tabs [role=tab]')].map(tab => tab.textContent)"), ["GUESS.MAC", "CONSOL.MAC", "MINE.MAC"])
    same(value(page), "; mine\n")
    page.wait("document.querySelectorAll('.number.break').length === 1")
    same(page.text("#theme-word"), "Dark")
    page.press_text("#tabs [role=tab]", "GUESS.MAC")
    same(value(page), LOOP)


@test
def files_are_renamed_moved_and_deleted(given):
    page = given.open()
    page.press("#files")
    page.press("[aria-label='Rename CONSOL.MAC']")
    page.key("a", CONTROL)
    page.type("A/B\n")
    check("no slashes" in page.text("#name-fault"), page.text("#name-fault"))
    page.key("a", CONTROL)
    page.call("Input.insertText", text="CAM.\u202eSSEUG")
    page.key("Enter")
    check("no control characters" in page.text("#name-fault"), page.text("#name-fault"))
    page.key("a", CONTROL)
    page.type("GUESS.MAC\n")
    check("Another file" in page.text("#name-fault"), page.text("#name-fault"))
    page.key("a", CONTROL)
    page.type("OTHER.MAC\n")
    page.wait("document.querySelector('[aria-label=\"Rename OTHER.MAC\"]')")
    page.press("[aria-label='Move up OTHER.MAC']")
    page.press("#files-dialog [data-close]")
    same(page.see("[...document.querySelectorAll('#tabs [role=tab]')].map(tab => tab.textContent)"), ["OTHER.MAC", "GUESS.MAC"])
    built(page)
    check("OTHER.TAP is linked" in page.text("#messages-list"), page.text("#messages-list"))
    page.press("#files")
    page.see("document.querySelector('[aria-label=\"What OTHER.MAC is for\"]').focus()")
    page.type("n")
    page.press("#files-dialog [data-close]")
    page.key("F9")
    page.wait("document.querySelector('#messages-list').textContent.includes('UNDEFINED GLOBAL')")
    page.press("#files")
    page.press("[aria-label='Delete OTHER.MAC']")
    page.press_text("#confirm button", "Cancel")
    page.press("[aria-label='Delete OTHER.MAC']")
    page.press("#confirm-yes")
    page.wait("document.querySelectorAll('.file').length === 1")


@test
def downloads_are_whole(given):
    page = given.open()
    given.browser.call("Browser.setDownloadBehavior", behavior="allow", downloadPath=given.folder)
    built(page)
    page.press("#files")
    page.press("#download-all")
    path = os.path.join(given.folder, "m11.zip")
    arrived(path)
    with zipfile.ZipFile(path) as archive:
        same(archive.testzip(), None)
        same(sorted(archive.namelist()), sorted(["GUESS.MAC", "CONSOL.MAC", "GUESS.OBJ", "GUESS.LST", "CONSOL.OBJ", "CONSOL.LST", "GUESS.TAP", "GUESS.MAP",
                                                 "GUESS.LOAD.MAP"]))
        same(archive.read("GUESS.MAC").decode(), value(page))
        tape = archive.read("GUESS.TAP")
        archive.extractall(os.path.join(given.folder, "all"))
    page.press("[aria-label='Download GUESS.MAC']")
    arrived(os.path.join(given.folder, "GUESS.MAC"))
    page.press("#files-dialog [data-close]")
    page.press("#tab-tape")
    page.press("#download-one")
    arrived(os.path.join(given.folder, "GUESS.TAP"))
    with open(os.path.join(given.folder, "GUESS.TAP"), "rb") as file:
        same(file.read(), tape)
    # All of it can be taken in again.
    folder = os.path.join(given.folder, "all")
    page.give_files("#pick-files", [os.path.join(folder, name) for name in os.listdir(folder) if not name.endswith(".MAC")])
    page.press("#files")
    page.wait(f"document.querySelectorAll('.file').length === 9")
    page.press("#files-dialog [data-close]")
    built(page)
    check("GUESS.OBJ is left out" in page.text("#messages-list"), page.text("#messages-list"))


@test
def files_are_dropped_in(given):
    page = given.open()
    paths = [given.file("NEW.MAC", "; dropped\r\n\tNOP\r\n"), given.file("LATIN.MAC", b"; \xe9\n")]
    for kind in ("dragEnter", "dragOver", "drop"):
        page.call("Input.dispatchDragEvent", type=kind, x=300, y=300, data={"items": [], "files": paths, "dragOperationsMask": 1})
    page.wait("[...document.querySelectorAll('#tabs [role=tab]')].some(tab => tab.textContent === 'LATIN.MAC')")
    page.press_text("#tabs [role=tab]", "NEW.MAC")
    same(value(page), "; dropped\n\tNOP\n")
    # What was edited keeps its ends of lines and its coding.
    for name in ("NEW.MAC", "LATIN.MAC"):
        page.press_text("#tabs [role=tab]", name)
        page.press("#editor .source:not([hidden])")
        page.key("End", CONTROL)
        page.type(";")
    given.browser.call("Browser.setDownloadBehavior", behavior="allow", downloadPath=given.folder)
    page.press("#files")
    page.press("#download-all")
    path = os.path.join(given.folder, "m11.zip")
    arrived(path)
    with zipfile.ZipFile(path) as archive:
        same(archive.read("NEW.MAC"), b"; dropped\r\n\tNOP\r\n;")
        same(archive.read("LATIN.MAC"), b"; \xe9\n;")


@test
def a_folder_is_refused(given):
    page = given.open()
    os.mkdir(os.path.join(given.folder, "FOLDER"))
    for kind in ("dragEnter", "dragOver", "drop"):
        page.call("Input.dispatchDragEvent", type=kind, x=300, y=300,
                  data={"items": [], "files": [os.path.join(given.folder, "FOLDER")], "dragOperationsMask": 1})
    page.wait("document.querySelector('#notice-text').textContent.includes('FOLDER can’t be read')")


@test
def a_link_carries_a_program(given):
    page = given.open()
    source(page, LOOP + f"; {MARKUP}\n")
    page.press("#share")
    page.wait("document.querySelector('#link-dialog').open")
    link = page.see("document.querySelector('#link-text').value")
    check("#m11=" in link, link)
    page.press("#link-dialog [data-close]")
    source(page, "; my own\n")
    page.reload()
    other = given.open(url=link)
    other.wait("document.querySelector('#notice').textContent.includes('came with the link')")
    same(value(other), LOOP + f"; {MARKUP}\n")
    other.harmless()
    # What is stored stays, whether the reader chooses or not.
    time.sleep(0.6)
    other.close()
    plain = given.open()
    same(value(plain), "; my own\n")
    plain.close()
    other = given.open(url=link)
    other.press_text("#notice button", "Back to mine")
    same(value(other), "; my own\n")
    other.close()
    for bad in ("#m11=AAAA", "#m11=" + "A" * 5000):
        third = given.open(url=given.url + bad)
        check("no program" in third.text("#notice"), third.text("#notice"))
        same(value(third), "; my own\n")
        third.close()


@test
def four_megabytes_of_source(given):
    page = given.open()
    lines = 32000
    text = "\t.TITLE\tBIG\n" + f"; {'x' * 126}\n" * lines + "START:\tHALT\n\t.END\tSTART\n"
    check(len(text) > 4000000, "the text is long")
    page.see("document.querySelector('#confirm') !== null")
    page.press("#files")
    for name in ("GUESS.MAC", "CONSOL.MAC"):
        page.press(f"[aria-label='Delete {name}']")
        page.press("#confirm-yes")
    page.give_files("#pick-files", [given.file("BIG.MAC", text)])
    page.wait("document.querySelector('#files-list').textContent.includes('BIG.MAC')", 60)
    page.press("#files-dialog [data-close]")
    page.wait("document.querySelector('#tabs [aria-selected=true]')?.textContent === 'BIG.MAC'", 60)
    begun = time.monotonic()
    page.key("F8")
    page.wait(f"{STATE} === 'HALT AFTER 1 STEPS'", 120)
    print(f"    4 MB assembled, linked, run in {time.monotonic() - begun:.1f} s")
    # The editor still takes a key.
    begun = time.monotonic()
    page.press("#editor .source:not([hidden])")
    page.key("Home", CONTROL)
    page.type(";")
    page.wait("document.querySelector('#editor .source:not([hidden])').value.startsWith(';\\t.TITLE')")
    page.wait("document.querySelector('#editor-layer').textContent.startsWith(';\\t.TITLE')")
    took = time.monotonic() - begun
    print(f"    a key in 4 MB took {took:.1f} s")
    check(took < 15, "a key in 4 MB")
    page.give_files("#pick-files", [given.file("MORE.MAC", f"; {'x' * 126}\n" * 2 * lines)])
    page.wait("document.querySelector('#tabs [aria-selected=true]')?.textContent === 'MORE.MAC'", 60)
    page.key("F9")
    page.wait("document.querySelector('#messages-list').textContent.includes('?M11 ASM 6 TooMuchSource')", 60)
    check("4,194,304 bytes" in page.text("#messages-list"), page.text("#messages-list"))
    # A message for each of 30,000 lines.
    page.give_files("#pick-files", [given.file("FLAGS.MAC", "\tMOV\tR0 R1\n" * 30000)])
    page.wait("document.querySelector('#tabs [aria-selected=true]')?.textContent === 'FLAGS.MAC'", 60)
    page.key("F9")
    page.wait("document.querySelector('#messages-count').textContent.replace(/\\D/g, '') === '30002'", 30)
    check("and 29504 more" in page.text("#messages-list"), page.text("#messages-list")[-200:])


@test
def storage_may_be_refused(given):
    """By the settings of the browser, not by a stand-in."""
    profile = os.path.join(given.folder, "profile")
    os.makedirs(os.path.join(profile, "Default"))
    with open(os.path.join(profile, "Default", "Preferences"), "w", encoding="utf-8") as file:
        json.dump({"profile": {"default_content_setting_values": {"cookies": 2}}}, file)
    with browser.Browser(profile) as other:
        page = other.open(given.url)
        check("stores nothing" in page.text("#notice"), page.text("#notice"))
        page.press("#files")
        check("last until it is closed" in page.text("#storage-state"), page.text("#storage-state"))
        page.press("#files-dialog [data-close]")
        built(page)
        page.key("F8")
        page.wait(f"{STATE}.startsWith('WAITS')")


@test
def memory_may_be_refused(given):
    page = given.open(before="WebAssembly.Memory.prototype.grow = () => { throw new RangeError('no'); };")
    page.key("F9")
    page.wait("document.querySelector('#messages-list .error') !== null")
    check("no memory" in page.text("#messages-list"), page.text("#messages-list"))


@test
def a_module_that_fails_is_made_anew(given):
    page = given.open(before="""const first = WebAssembly.instantiate;
        WebAssembly.instantiate = async (...given) => {
            const instance = await first(...given), isFirst = !window.made;
            window.made = (window.made ?? 0) + 1;
            return isFirst ? { exports: { ...instance.exports, m11_command: () => { throw new WebAssembly.RuntimeError('unreachable'); } } } : instance;
        };""")
    page.key("F9")
    page.wait("document.querySelector('#messages-list').textContent.includes('The module failed: unreachable')")
    page.wait("window.made === 2")
    built(page)
