"""What is proved of a yes, what is tested, and what is neither, in a verifier's words; and the certification that is signed."""

from __future__ import annotations

from ..inputs import read_file
from ..speaking import Stop

# Four sentences, each below a word of its own.
MEANING = (
    (
        "Proved",
        "that the yes holds is a theorem about the program itself, which a machine has checked: for any files of which the program says yes, each "
        "purchase keeps the terms and denominations that the program states from 31 CFR part 344, the cash balance is negative on no day, the exact "
        "yield lies between the two ends that are printed and exceeds the restricted yield by no more than one thousandth of a percentage point, and no "
        "rival costs less by more than the amount that is printed.",
    ),
    (
        "What that rests on",
        "the machine that checked the theorem, the compiler that built the program from the text that was checked, the computer on which it ran, "
        "and, where the program wasn't proved where these exhibits were made, on whoever proved it, as the first box says.",
    ),
    (
        "Tested, and not proved",
        "the tool that made these exhibits, of which each figure is the program's own or was worked out beside it and agreed with it, and which "
        "would have made nothing where one hadn't agreed.",
    ),
    (
        "Neither",
        "whether the files are true (the terms of the bonds, the rates of the Treasury's table, the prices that are paid, the restricted yield), and "
        "whether the rules that the program states suit this issue, which those who sign find by comparing the exhibits with the documents, while the "
        "digests say which files were read.",
    ),
)
BLANK = "______________________"
CERTIFICATION = (
    "We, " + BLANK + " (name of the verifier), have compared the exhibits with these documents: the official statement of the refunded bonds, dated "
    + BLANK + "; the resolution or notice by which they are called, dated " + BLANK + "; the Treasury's table of SLGS rates of " + BLANK
    + "; the confirmations of the securities that are bought, dated " + BLANK + "; and, for the restricted yield, " + BLANK + ".",
    "We have run the program on the files whose digests stand above, and it gave the answer that stands there. On that ground the receipts of the escrow, "
    "with its opening cash, suffice to pay what Exhibit %(needs)s shows, each amount on its day, and the escrow's yield is as it is stated.",
    "This is said to " + BLANK + " (the issuer) and to " + BLANK + " (bond counsel), who may rely on it. We say nothing of whether interest on any bond is "
    "excluded from gross income.",
)


NO_ESCROW = (
    "We have run the program on the files whose digests stand above, and it gave the answer that stands there. On that ground no permitted purchases of "
    "what these files offer pay the needs at a yield within the limit."
)


def certification(path, exhibit: str, has_escrow: bool) -> list[str]:
    """The paragraphs that are signed: those of a file, which blank lines part, or the usual ones with blanks."""
    if path is None:
        first, second, last = CERTIFICATION
        found = second.replace("Exhibit %(needs)s shows", "Exhibit %s shows" % exhibit if exhibit else "is needed")
        return [first, found if has_escrow else NO_ESCROW, last]
    try:
        text = read_file(path, 100_000).decode("utf-8-sig")
    except UnicodeDecodeError:
        raise Stop("%s isn't a text in UTF-8; nothing is made" % path) from None
    if "\0" in text:
        raise Stop("%s has bytes of 0, so it is no text; nothing is made" % path)
    paragraphs = [" ".join(part.split()) for part in text.replace("\r\n", "\n").replace("\r", "\n").split("\n\n")]
    paragraphs = [part for part in paragraphs if part]
    if not paragraphs:
        raise Stop("%s has no words; nothing is made" % path)
    return paragraphs
