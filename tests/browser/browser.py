"""A browser that is used as a person uses it: by what is seen, by names of controls, by keys; and its devtools."""
import base64
import contextlib
import os
import re
import tempfile
import time
from collections.abc import Callable, Iterator, Mapping
from pathlib import Path
from typing import Any

import urllib3
from selenium import webdriver
from selenium.common.exceptions import WebDriverException
from selenium.webdriver.chrome.options import Options
from selenium.webdriver.chrome.service import Service
from selenium.webdriver.chrome.webdriver import WebDriver
from selenium.webdriver.common.action_chains import ActionChains
from selenium.webdriver.common.keys import Keys
from selenium.webdriver.remote.remote_connection import RemoteConnection

import axe
import scripts
from paper import Paper
from small_png import reduced
from database import PATIENCE, ROOT, Trouble, until
from town import Town

LONGEST = 300
STILL_LOADING = "This screen is still loading."
VISITED = "rider clerk examiner officer dispatcher driver admin"
PICTURES = f"{ROOT}/docs/pictures"
LETTER = {"paperWidth": 8.5, "paperHeight": 11, "preferCSSPageSize": True, "printBackground": False}
WORDS = {
    "en": {"key": "Key", "in": "Sign in", "out": "Sign out"},
    "es": {"key": "Clave", "in": "Entrar", "out": "Salir"},
}
# The name of a control: a text, or a pattern.
Name = str | re.Pattern[str]


def started(options: Options, tries: int = 3) -> WebDriver:
    """A browser; where it does not come up on a busy machine, it is started again."""
    for left in reversed(range(tries)):
        service = Service("/usr/bin/chromedriver", log_path=os.devnull)
        try:
            return webdriver.Chrome(service=service, options=options)
        except (WebDriverException, OSError, urllib3.exceptions.HTTPError):
            service.stop()
            if not left:
                raise
    raise Trouble("no browser was tried")


class Browser:
    def __init__(
        self,
        origin: str,
        folder: str,
        size: tuple[int, int] = (1280, 900),
        preferences: dict[str, int] | None = None,
        logs: tuple[str, ...] = ("browser", "performance"),
    ) -> None:
        self.origin, self.folder = origin, folder
        self.ignored: list[str] = []
        options = Options()
        options.binary_location = "/usr/bin/chromium"
        options.accept_insecure_certs = True
        home = tempfile.mkdtemp(dir=folder)
        for argument in [
            "--headless=new",
            "--no-sandbox",
            "--disable-gpu",
            "--disable-dev-shm-usage",
            "--lang=en-US",
            "--disable-renderer-backgrounding",
            "--disable-backgrounding-occluded-windows",
            "--disable-background-timer-throttling",
            "--ignore-certificate-errors",
            f"--window-size={size[0]},{size[1]}",
            f"--user-data-dir={home}",
        ]:
            options.add_argument(argument)
        options.add_experimental_option("excludeSwitches", ["hide-scrollbars"])
        options.add_experimental_option("prefs", preferences or {})
        options.set_capability("goog:loggingPrefs", {it: "ALL" for it in logs})
        RemoteConnection.set_timeout(LONGEST)
        self.driver = started(options)
        self.driver.set_script_timeout(PATIENCE)
        self.asked: list[str] = []

    def __enter__(self) -> "Browser":
        return self

    def __exit__(self, *_: object) -> None:
        with contextlib.suppress(WebDriverException, OSError, urllib3.exceptions.HTTPError):
            self.driver.quit()

    def script(self, text: str, *values: Any) -> Any:
        return self.driver.execute_script(text, *values)

    def devtools(self, command: str, **values: Any) -> Any:
        return self.driver.execute_cdp_cmd(command, values)

    def go(self, path: str = "") -> None:
        """Goes to an address of the site, always by loading it. No other site is visited between: a process of its own
        might not yet know what this window keeps."""
        if not self.script(
            "const [page, address] = arguments; const [here] = location.href.split('#'); "
            "if (here !== page) return false; history.replaceState(null, '', address); return true;",
            f"{self.origin}/{path.partition('#')[0]}",
            f"{self.origin}/{path}",
        ):
            self.driver.get(f"{self.origin}/{path}")
        else:
            self.driver.refresh()

    def reload(self) -> None:
        self.driver.refresh()

    # What is there, by the names that a person sees or hears.

    def all(self, kind: str, name: Name, within: Any = None) -> list[Any]:
        """Each control that is seen, of a kind (button, link, tab, field, heading, group, region, row) and a name: a
        text, or a pattern of re."""
        pattern = name.pattern if isinstance(name, re.Pattern) else None
        found: list[Any] = self.script(
            scripts.FINDER, kind, pattern or name, pattern is not None, within
        )
        return found

    def find(self, kind: str, name: Name, within: Any = None) -> Any:
        def missing() -> str:
            return f"there is no {kind} {name!r}, but {self.script(scripts.NAMES, kind)}"

        return until(missing, lambda: self.all(kind, name, within))[0]

    def is_there(self, kind: str, name: str | re.Pattern[str]) -> bool:
        return bool(self.all(kind, name))

    def press(self, name: Name, kind: str = "button", within: Any = None) -> None:
        """Clicks what has this name. A click on what was drawn anew meanwhile is tried again."""

        def clicked() -> bool:
            try:
                it = self.find(kind, name, within)
                # (what a bar covers is moved into the middle, as a person does it)
                self.script(scripts.UNCOVERED, it)
                it.click()
                return True
            except WebDriverException as error:
                if (
                    "stale" in str(error)
                    or "intercepted" in str(error)
                    or "interactable" in str(error)
                ):
                    return False
                raise

        until(f"the {kind} {name!r} cannot be clicked", clicked)

    def fill(
        self,
        name: Name,
        value: object,
        within: Any = None,
    ) -> None:
        """Types into the field of this label, or chooses in it, or ticks it; of a group of this name it chooses one alone."""
        control = self.control_of(name, within)
        kind = self.script(scripts.KIND, control)
        if kind in ("text", "password", "textarea", "search", "tel"):
            control.send_keys(Keys.CONTROL, "a")
            control.send_keys(Keys.DELETE, str(value))
        elif options := self.script(scripts.SETTER, control, value):
            raise Trouble(f"{name} has no {value!r}, but {options}")

    def control_of(self, name: Name, within: Any = None) -> Any:
        def missing() -> str:
            return f"there is no field {name!r}, but {self.script(scripts.NAMES, 'field')}"

        return until(
            missing, lambda: self.all("field", name, within) or self.all("group", name, within)
        )[0]

    def fill_all(self, values: Mapping[str, object], within: Any = None) -> None:
        for name, value in values.items():
            self.fill(name, value, within)

    def value(self, name: Name) -> Any:
        """What stands in a field; of a group what is chosen in it, with blanks between."""
        control = self.control_of(name)
        return (
            self.script(scripts.CHOSEN, control)
            if control.tag_name == "fieldset"
            else control.get_attribute("value")
        )

    def text(self, within: Any = None) -> str:
        told: str = self.script("return (arguments[0] ?? document.body).innerText", within)
        return told

    def sees(self, *texts: str) -> None:
        """Waits until the page shows each of these texts."""
        from checks import COUNTED

        def missing() -> str:
            shown = self.text()
            return f"the page does not show {[it for it in texts if it not in shown]}, but: {shown[:900]!r}"

        until(missing, lambda: all(it in self.text() for it in texts))
        COUNTED["held"] += len(texts)

    def sees_no(self, *texts: str) -> None:
        """Waits until the page shows none of these texts."""
        from checks import COUNTED

        until(
            lambda: f"the page still shows one of {texts}",
            lambda: not any(it in self.text() for it in texts),
        )
        COUNTED["held"] += len(texts)

    # The keyboard.

    def keys(self, *keys: str) -> None:
        """Presses these keys one after another, wherever the focus is."""
        for key in keys:
            ActionChains(self.driver).send_keys(key).perform()

    def focused(self) -> str:
        """The name of what has the focus; of the body it is empty."""
        name: str = self.script(scripts.FOCUSED)
        return name

    def tab_to(self, name: str | re.Pattern[str], most: int = 80) -> int:
        """Goes on by Tab to the control of this name, which is to be seen to have the focus; how many Tabs it took."""
        for count in range(1, most + 1):
            self.keys(Keys.TAB)
            here, shown = self.script(scripts.FOCUS_SEEN)
            if here == name or isinstance(name, re.Pattern) and name.search(here):
                if not shown:
                    raise Trouble(f"the focus on {name} is not seen")
                return count
        raise Trouble(f"no focus on {name!r} in {most} steps; the last was on {here!r}")

    # Signing in and windows.

    def fresh(self) -> None:
        """The page as somebody new would see it: nothing is kept from before."""
        self.driver.get(f"{self.origin}/icon.svg")
        self.devtools("Storage.clearDataForOrigin", origin=self.origin, storageTypes="all")
        self.go()

    def sign_in(self, key: str, screen: str, part: str = "", language: str = "en") -> None:
        """Signs in with a key, and goes to a screen (and a part of it), as the address names them."""
        words = WORDS[language]
        address = f"#{screen}/{part}" if part else f"#{screen}"
        until("what the window keeps cannot be cleared", lambda: self.cleared(address))
        self.fill(words["key"], key)
        self.choose_job(screen)
        self.press(words["in"])
        self.signed_in(language)
        self.shown(screen)
        if part:
            self.go_part(screen, part)

    def signed_in(self, language: str = "en") -> None:
        """Waits until somebody is signed in: the way out is at hand, in the office in the person's menu."""
        until(
            lambda: f"nobody is signed in, but: {self.text()[:300]!r}",
            lambda: self.menu() or self.all("button", WORDS[language]["out"]),
        )

    def menu(self) -> Any:
        """The button of the person's menu, where this screen has one."""
        return self.script("return document.getElementById('me-menu')")

    def sign_out(self, language: str = "en") -> None:
        """Signs out as a person does: by the menu, or by the button of a phone."""
        self.signed_in(language)
        if menu := self.menu():
            menu.click()
        self.press(WORDS[language]["out"])

    def ask_for_help(self) -> None:
        """Opens the keys and the help of the screen, by the menu or by the button of a phone."""
        if menu := self.menu():
            menu.click()
        self.press("Keys and help")

    def switch_to(self, language: str) -> None:
        """Presses the button of the other language, and waits until the page speaks it."""
        self.press({"en": "English", "es": "Español"}[language])
        until(
            lambda: f"the page does not speak {language}",
            lambda: self.script("return document.documentElement.lang") == language,
        )

    def choose_job(self, screen: str) -> None:
        """Chooses a screen in the form that signs in."""
        self.script(
            "document.querySelector('.jobs input[value=\"' + arguments[0] + '\"]')?.click()", screen
        )

    def cleared(self, address: str) -> bool:
        """Goes to an address with nothing kept by this window; whether it was so. (A busy browser clears late.)"""
        self.driver.get(f"{self.origin}/icon.svg")
        # (nobody is here for the first time: what is said then is tried by itself; stores that are full keep nothing)
        self.script(
            "sessionStorage.clear(); try { localStorage.setItem('desk.visited', arguments[0]); } catch { }",
            VISITED,
        )
        self.go(address)
        is_empty: bool = self.script("return sessionStorage.getItem('desk.key') === null")
        return is_empty

    @staticmethod
    def word(name: str, language: str) -> str:
        return WORDS[language][name]

    def speak(self, language: str) -> None:
        """The language of the pages in this browser from the next loading on."""
        self.driver.get(f"{self.origin}/icon.svg")
        self.script("localStorage.setItem('desk.language', arguments[0])", language)

    def go_part(self, screen: str, part: str) -> None:
        self.script(
            "if (location.hash !== arguments[0]) location.hash = arguments[0]", f"#{screen}/{part}"
        )

    def shown(self, address: str) -> None:
        """Waits until a screen, or this part of it, is shown, and no longer the page of signing in. A screen that still says
        after half a minute that it is loading is asked for again, as a person would, and the run says so.
        """
        patience = time.monotonic() + 30
        until(
            lambda: f"{address} is not shown, but: {self.text()[:300]!r}",
            lambda: self.is_shown(address) or self.tries_again(address, patience),
        )

    def is_shown(self, address: str) -> bool:
        return bool(
            self.script(
                "const [part] = arguments, it = document.querySelector('main'); "
                "return Boolean(it.querySelector('h1')) && !it.querySelector('[type=password]') && (!part.includes('/') "
                "|| document.querySelector('#parts [aria-current]')?.getAttribute('href') === `#${part}`)",
                address,
            )
        )

    def tries_again(self, address: str, patience: float) -> bool:
        """Presses the button of a screen that is still loading once patience is over. It is not shown by that."""
        if time.monotonic() > patience and self.script(
            "const it = document.querySelector('main > .note'); if (!it?.textContent.startsWith(arguments[0])) return false; "
            "it.querySelector('button').click(); return true",
            STILL_LOADING,
        ):
            print(
                f"{address} was still loading after half a minute, and was asked for again",
                flush=True,
            )
        return False

    def keep_subjects(self) -> None:
        """Rider 1001 and vehicle 1 are those whose records are shown."""
        for what, number in [("rider", 1001), ("vehicle", 1)]:
            self.script(
                "sessionStorage.setItem(`desk.subject.${arguments[0]}`, arguments[1])", what, number
            )

    def addresses(self) -> list[str]:
        """The addresses of the parts of this screen, none where there is one part."""
        links = self.script(
            "return [...document.querySelectorAll('#parts a')].map((it) => it.getAttribute('href'))"
        )
        return [it.lstrip("#") for it in links if it.startswith("#")]

    def each_part(self, key: str, screen: str, language: str = "en") -> Iterator[str]:
        """Goes to each part of a screen, with rider 1001 and vehicle 1 on it; gives its address once it is shown."""
        self.sign_in(key, screen, language=language)
        self.keep_subjects()
        addresses = self.addresses() or [screen]
        self.go(f"#{addresses[0]}")
        for address in addresses:
            if address != addresses[0]:
                self.script("location.hash = arguments[0]", f"#{address}")
            self.shown(address)
            self.settled()
            yield address

    @contextlib.contextmanager
    def second_window(
        self, kind: str = "tab"
    ) -> Iterator[tuple[Callable[[], object], Callable[[], object]]]:
        """A further window of this browser; it is closed at the end."""
        first = self.driver.current_window_handle
        self.driver.switch_to.new_window(kind)
        second = self.driver.current_window_handle
        try:
            yield lambda: self.driver.switch_to.window(first), lambda: self.driver.switch_to.window(
                second
            )
        finally:
            self.driver.switch_to.window(second)
            self.driver.close()
            self.driver.switch_to.window(first)

    # How it is shown.

    @contextlib.contextmanager
    def screen(
        self, width: int, height: int, mobile: bool = False, scale: int = 1
    ) -> Iterator[None]:
        """A screen of so many CSS pixels. That of a desk has a scrollbar, that of a phone (mobile) none."""
        self.devtools(
            "Emulation.setDeviceMetricsOverride",
            width=width,
            height=height,
            deviceScaleFactor=scale,
            mobile=mobile,
        )
        try:
            yield
        finally:
            self.devtools("Emulation.clearDeviceMetricsOverride")

    def zoomed(self) -> contextlib.AbstractContextManager[None]:
        """A screen of 1280 by 1024 at 400 percent."""
        return self.screen(320, 256, scale=4)

    @contextlib.contextmanager
    def media(self, medium: str = "", **features: str) -> Iterator[None]:
        """Such as forced_colors="active", prefers_color_scheme="dark", prefers_reduced_motion="reduce"; or "print"."""
        wanted = [
            {"name": name.replace("_", "-"), "value": value} for name, value in features.items()
        ]
        self.devtools("Emulation.setEmulatedMedia", media=medium, features=wanted)
        try:
            yield
        finally:
            self.devtools("Emulation.setEmulatedMedia", media="", features=[])

    def space_text(self) -> None:
        """Spaces the text as WCAG 1.4.12 has it, until the page is loaded anew, or unspace_text is called."""
        self.script(scripts.SPACING)

    def unspace_text(self) -> None:
        self.script("document.adoptedStyleSheets = document.adoptedStyleSheets.slice(0, -1)")

    def sideways(self) -> Any:
        """How many pixels the page can be moved sideways, and what is too wide."""
        return self.script(scripts.SIDEWAYS)

    def axe(self, **options: bool) -> dict[str, list[str]]:
        """What axe finds: {"violations": [...], "incomplete": [...]}, each a short text."""
        return axe.found_by(self, **options)

    # Line and clock.

    @contextlib.contextmanager
    def no_line(self, town: Town) -> Iterator[None]:
        """The line is cut: the browser is offline, and the site is not there."""
        town.stop_site()
        self.line(offline=True)
        try:
            yield
        finally:
            town.start_site()
            self.line()

    def line(self, offline: bool = False, milliseconds: int = 0, bytes_a_second: int = -1) -> None:
        """What the line of this window is like from now on."""
        self.devtools("Network.enable")
        self.devtools(
            "Network.emulateNetworkConditions",
            offline=offline,
            latency=milliseconds,
            downloadThroughput=bytes_a_second,
            uploadThroughput=bytes_a_second,
        )

    @contextlib.contextmanager
    def clock(self, seconds: int = 0, hurry: int = 1) -> Iterator[None]:
        """The machine's own clock is so many seconds wrong, and its timers of a second and more run so many times as
        fast; from the next loading of a page on."""
        made = self.devtools(
            "Page.addScriptToEvaluateOnNewDocument",
            source=scripts.CLOCK % {"milliseconds": seconds * 1000, "hurry": hurry},
        )
        try:
            yield
        finally:
            self.devtools("Page.removeScriptToEvaluateOnNewDocument", identifier=made["identifier"])

    def passes(self, seconds: int) -> None:
        """So much time passes by the machine's clock, until the page is loaded anew."""
        self.script(f"const now = Date.now; Date.now = () => now() + 1000 * {seconds};")

    # Paper and pictures.

    def printed(self, **options: Any) -> Paper:
        """What a printer would get of the page as it is now."""
        told = self.devtools("Page.printToPDF", **{**LETTER, **options})
        return Paper(base64.b64decode(told["data"]), self.folder)

    def papers(self) -> None:
        """From now on, and until the page is loaded anew, a press of Print is counted and opens no dialog."""
        self.script("window.papers = 0; window.print = () => { window.papers += 1; }")

    def print_by(self, name: str | re.Pattern[str], **options: bool | float) -> Paper:
        """What a printer gets after this button was pressed. (Then the paper is taken away.)"""
        self.papers()
        self.press(name)
        until(f"{name} prints nothing", lambda: self.script("return window.papers > 0"))
        return self.printed(**options)

    def picture(self, name: str, highest: int = 1500) -> None:
        """Makes a picture of docs/pictures anew."""
        image = reduced(self.sight(highest))
        Path(f"{PICTURES}/{name}.png").write_bytes(image)

    def sight(self, highest: int = 4000) -> bytes:
        width, height = self.script("return [innerWidth, document.documentElement.scrollHeight]")
        clip = {"x": 0, "y": 0, "width": width, "height": min(height, highest), "scale": 1}
        return base64.b64decode(
            self.devtools("Page.captureScreenshot", captureBeyondViewport=True, clip=clip)["data"]
        )

    def kept_sight(self, name: str) -> None:
        """Where the environment names a folder as PAGES_SIGHTS, what is seen now is kept there."""
        folder = os.environ.get("PAGES_SIGHTS")
        with contextlib.suppress(WebDriverException, OSError):
            if folder:
                os.makedirs(folder, exist_ok=True)
                Path(f"{folder}/{name}.png").write_bytes(self.sight())

    # What the browser notes.

    def no_errors(self) -> None:
        """Raises what the console has of errors that nobody caught. (The browser notes each reply of 400 and above.)"""
        said = [
            line["message"]
            for line in self.driver.get_log("browser")
            if line["level"] == "SEVERE" and line["source"] not in ("network", "recommendation")
        ]
        strange = [it for it in said if not any(re.search(pattern, it) for pattern in self.ignored)]
        if strange:
            raise Trouble(f"the console has {strange[:3]}")

    def forget_errors(self) -> None:
        with contextlib.suppress(WebDriverException):
            self.driver.get_log("browser")

    def requests(self) -> list[str]:
        """The addresses that were asked since this was called last."""
        asked = []
        for line in self.driver.get_log("performance"):
            found = re.search(
                r'"Network.requestWillBeSent".*?"request":\{.*?"url":"([^"]*)"', line["message"]
            )
            asked += [found[1]] if found else []
        return asked

    def settled(self, milliseconds: int = 300) -> None:
        """Waits until the page has not changed for so long."""
        self.driver.execute_async_script(scripts.SETTLED, milliseconds)


def pause(seconds: float) -> None:
    """For what does not happen: there is nothing to wait for."""
    time.sleep(seconds)
