"""Draws a label of Hebrew and English on an image, wrapped to the image's width.

usage: label.py [IMAGE [FONT]]

IMAGE is the file to write, label.png by default. FONT is a font with Hebrew letters, DejaVuSans.ttf by default. The
program prints the lines that it draws. It needs the wheel unicode_bidi, and Pillow. Pillow's basic layout does not know
the Unicode Bidirectional Algorithm, so each line is drawn in visual order."""
import sys

from unicode_bidi import BidiText

try:
    from PIL import Image, ImageDraw, ImageFont
except ImportError:
    print("left out: the label, since Pillow is not installed: apt-get install python3-pil")
    sys.exit()

TEXT = "שלום! הרכבת (train) יוצאת בשעה 12:30 מרציף 4.\nPlatform 4 (רציף) is downstairs."
WIDTH, MARGIN, SIZE = 320, 12, 24


def wrapped(text, paragraph, fits):
    """Returns the lines of a paragraph: each takes as many words as fit, and at least one."""
    end = paragraph.end
    while end > paragraph.start and text.text[end - 1] in " \n":
        end -= 1
    lines, start = [], paragraph.start
    while start < end:
        stop = _next_break(text.text, start, end)
        while stop < end and fits(text.text[start:_next_break(text.text, stop, end)].rstrip()):
            stop = _next_break(text.text, stop, end)
        lines.append(text.line(start, stop))
        start = stop
    return lines


def _next_break(text, start, end):
    """Returns the index after the next space, or the end."""
    space = text.find(" ", start, end)
    return end if space < 0 else space + 1


def main(path="label.png", font_name="DejaVuSans.ttf"):
    try:
        font = ImageFont.truetype(font_name, SIZE, layout_engine=ImageFont.Layout.BASIC)
    except OSError:
        sys.exit(f"label.py: there is no font {font_name}: install fonts-dejavu-core, or name a font with Hebrew letters")
    room = WIDTH - 2 * MARGIN
    text = BidiText(TEXT)
    lines = [line for paragraph in text.paragraphs
             for line in wrapped(text, paragraph, lambda words: font.getlength(words) <= room)]
    image = Image.new("L", (WIDTH, 2 * MARGIN + len(lines) * SIZE * 3 // 2), "white")
    draw = ImageDraw.Draw(image)
    for number, line in enumerate(lines):
        shown = line.display().strip()
        left = WIDTH - MARGIN - font.getlength(shown) if line.paragraph.level % 2 else MARGIN
        draw.text((left, MARGIN + number * SIZE * 3 // 2), shown, font=font, fill="black")
        print(shown)
    image.save(path)


if __name__ == "__main__":
    main(*sys.argv[1:3])
