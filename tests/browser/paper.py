"""What was printed, read back from the PDF by Debian's poppler-utils, and squares (QR codes) by its zbar-tools."""
import re
import subprocess
import tempfile
import xml.etree.ElementTree

DOTS = 200  # an inch, as a camera sees a page
ZOOM = 3  # the most that pdftohtml takes; so sizes are told in thirds of a point


class Paper:
    """A printed document: `pages` is their number, `text` all text as it is laid out, `page_texts` of each page."""

    def __init__(self, pdf: bytes, folder: str) -> None:
        with tempfile.NamedTemporaryFile(dir=folder, suffix=".pdf", delete=False) as file:
            file.write(pdf)
        self.file = file.name
        words = ["pdftotext", "-layout", "-enc", "UTF-8", self.file, "-"]
        laid = subprocess.run(words, check=True, capture_output=True)
        self.page_texts = laid.stdout.decode().split("\f")[:-1]
        self.text, self.pages = "\n".join(self.page_texts), len(self.page_texts)

    def sizes(self) -> dict[float, str]:
        """The sizes of type in points, each with the first text that has it."""
        words = ["pdftohtml", "-xml", "-i", "-stdout", "-zoom", str(ZOOM), self.file]
        told = subprocess.run(words, check=True, capture_output=True).stdout.decode(
            errors="replace"
        )
        sizes: dict[str, float] = {}
        first: dict[float, str] = {}
        for number, size in re.findall(r'<fontspec id="(\d+)" size="(-?\d+)"', told):
            sizes[number] = int(size) / ZOOM
        for number, text in re.findall(r'<text [^>]*font="(\d+)"[^>]*>(.*?)</text>', told):
            plain = re.sub(r"<[^>]*>", "", text).strip()
            if plain:
                first.setdefault(sizes[number], plain[:60])
        return first

    def smallest(self) -> tuple[float, str]:
        """The smallest size of type and a text of that size."""
        return min(self.sizes().items(), default=(0.0, "nothing"))

    def outside(self) -> list[str | None]:
        """Words that stand beyond the edge of their page."""
        words = ["pdftotext", "-bbox", "-enc", "UTF-8", self.file, "-"]
        told = subprocess.run(words, check=True, capture_output=True).stdout
        found = []
        for page in xml.etree.ElementTree.fromstring(told).iter(
            "{http://www.w3.org/1999/xhtml}page"
        ):
            width, height = float(page.attrib["width"]), float(page.attrib["height"])
            for word in page:
                if (
                    float(word.attrib["xMax"]) > width
                    or float(word.attrib["yMax"]) > height
                    or float(word.attrib["xMin"]) < 0
                ):
                    found.append(word.text)
        return found

    def squares(self) -> list[str]:
        """What a camera reads of the squares on the first page."""
        words = [
            "pdftoppm",
            "-r",
            str(DOTS),
            "-f",
            "1",
            "-singlefile",
            "-png",
            self.file,
            self.file,
        ]
        subprocess.run(words, check=True, capture_output=True)
        return squares_in(f"{self.file}.png")


def squares_in(file: str) -> list[str]:
    """What a camera reads of the squares in a picture."""
    told = subprocess.run(["zbarimg", "--quiet", "--raw", file], capture_output=True, text=True)
    return told.stdout.split()
