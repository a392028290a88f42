"""How wide a text is, by letter: cautious, as in the wider of usual fonts without serifs, so that it fits in all."""

import unicodedata
from typing import Dict, List

# Hundredths of the font's size: the widths of DejaVu Sans and of its bold letters, rounded up.
REGULAR: Dict[int, str] = {
    24: "י", 30: "'IJijlłıΙІіЈјון", 33: " ,.·‘’‚", 36: "/:;\\f|ιז", 39: "-ľ", 42: "!()[]rtΊגנ", 48: '"', 51: "*_`–°§",
    54: "?sz“”„гзґѕךכץ", 57: "LcŁΓεζνξсэєדלר", 60: "Fkvxy•γκλςυχвтухчьבצ", 63: "PTYaeoßøðÞ«»ΡΤΥδθοπτГРТУабекояҐђעפ",
    66: "$0123456789EKSbdghnpqu{}þđŋ£€ΕΚΞΣαβημρσφψЕЗийлнпрћџЅהחטסףת", 69: "ABVXZΑΒΔΖΛΧАБВХЧЬцאםמ", 72: "CRΆКСЭЯдъЄקש",
    75: "NUΈΝИЙ", 78: "&DGHÐΗΠΩЛНПЦмЏ", 81: "OQØΘΟΦΨДОыЋЂ", 84: "#+<=>^w~ΌΎΏ×←↑→↓ωЪ", 87: "MƯΜМФфю", 90: "ΉЫњ",
    93: "Ơжшљ", 96: "%щ", 99: "WmæÆ", 102: "@—…", 105: "œЊ", 108: "ŒЖШЮ", 111: "ЩЉ",
}
BOLD: Dict[int, str] = {
    30: "י", 33: "'", 36: " ijlıіјון", 39: ",./IJ\\|ł·‘’‚ΙιІЈ", 42: "-:;ז", 45: "fג", 48: "!()[]tľנ", 51: "_`r–°§",
    54: '"*гґ', 57: "Ίεכ", 60: "?cszζξςзстэєѕדך", 63: "בלר", 66: "LvxyŁ“”„•«»ΓΞλτχГвухьяҐפצ",
    69: "EFTaekoøðΕΣΤαγδθνουЕТаекочהחטסעףץת", 72: "$0123456789bdghnpqu{}ßþđŋ£€βηκρЗбийнпрџђם",
    75: "CPSYZÞΖΡΥμРСЭлцЄћЅאמק", 78: "ABKRVXΑΒΔΚΛΧσАБВУХЬЯъש", 81: "ΆπφψЧд", 84: "#+<=>DGHNU^~ÐƯ×←↑→↓ΗΝΠИЙКЛНПмЏ",
    87: "OQØΈΘΟΦΨΩωО", 90: "&ƠΌΏДЋЂ", 93: "wЦы", 96: "Ъњ", 99: "Ύю", 102: "%@MΉ—…ΜМФжфљ", 105: "mæЫ", 108: "ш",
    111: "WœÆщ", 114: "Њ", 117: "ŒЉ", 120: "Ю", 123: "Ж", 126: "Ш", 135: "Щ",
}
OTHERS = (105, 125, 140)  # a letter of Chinese or Japanese; any other that isn't in the table, and where it is bold
WIDTHS = tuple({letter: width for width, letters in table.items() for letter in letters} for table in (REGULAR, BOLD))


def width_of(text: str, bold: bool = False) -> float:
    """How wide a text is at most, in sizes of its font."""
    return sum(letter_width(letter, bold) for letter in text) / 100


def letter_width(letter: str, bold: bool) -> int:
    """The width of a letter; one with an accent is as wide as without, a mark of direction has none."""
    width = WIDTHS[bold].get(letter) or WIDTHS[bold].get(unicodedata.normalize("NFD", letter)[0])
    if width is not None:
        return width
    if unicodedata.combining(letter) or unicodedata.category(letter) in ("Cf", "Mn"):
        return 0
    wide = unicodedata.east_asian_width(letter) in ("W", "F") and unicodedata.category(letter)[0] == "L"
    return OTHERS[0] if wide else OTHERS[1 + bold]


def fitted(text: str, most: float, bold: bool = False) -> str:
    """A text that is at most so wide, in sizes of its font: dots stand where it is cut; an isolated part stays so."""
    if width_of(text, bold) <= most:
        return text
    kept = text.replace("\u2069", "")
    while len(kept) > 1 and width_of(kept.rstrip() + "…", bold) > most:
        kept = kept[:-1]
    cut = kept.rstrip("\u2068 ") + "…"
    return cut + "\u2069" if "\u2068" in cut else cut


def wrapped(text: str, most: float) -> List[str]:
    """A text in lines that are at most so wide, cut at blanks; a wider word stands on a line of its own, cut."""
    lines = [""]
    for word in text.split(" "):
        if lines[-1] and width_of(f"{lines[-1]} {word}") > most:
            lines.append("")
        lines[-1] += (" " if lines[-1] else "") + fitted(word, most)
    return lines
