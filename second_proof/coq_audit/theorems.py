"""The theorems that an audit states, in Coq and in English."""

import dataclasses

from second_proof.coq_audit.terms import Terms, number_term

HEAD = "Require Import Definitions Tests Headline Texts Read Audit.\n"


@dataclasses.dataclass(frozen=True)
class Kind:
    """A kind of audit: the command of the checker, the names of its files and their separators, what Coq answers, and
    what follows."""

    command: str
    files: tuple[str, ...]
    separators: tuple[str, ...]
    answer: str
    yes: str
    no: str
    words: str


AUDIT = Kind(
    "audit",
    ("award", "log", "cert"),
    (" ", ",", " "),
    "audit_answer read_award read_log read_cert award_file log_file cert_file",
    "audit_yes _ _ _ _ _ _ _ answer",
    "audit_no _ _ _ _ _ _ _ _ answer",
    """The bytes of the three files, those of the award without its comments, state one award, one log and one \
certificate, and
nothing else.
The log is complete, and its book holds exactly the bids that the activity rules admit.
The winners are the first feasible choice of greatest net value, {net}.
No coalition blocks the prices. Their sum, {revenue} with reserves, is least in the core,
and every other core point of that sum lies farther from the Vickrey point.""",
)
CHECK = Kind(
    "check",
    ("book", "cert"),
    (" ", " "),
    "check_texts book_file [] cert_file",
    "check_yes _ _ _ _ answer",
    "check_no _ _ _ _ _ answer",
    """The bytes of the two files state this book and this certificate.
The winners are the first feasible choice of greatest net value, {net}.
No coalition blocks the prices. Their sum, {revenue} with reserves, is least in the core,
and every other core point of that sum lies farther from the Vickrey point.""",
)
WEIGH = dataclasses.replace(
    CHECK,
    command="weigh-check",
    files=("book", "weights", "cert"),
    separators=(" ", " ", " "),
    answer="check_texts book_file weights_file cert_file",
    words=CHECK.words.replace("two files state this book", "three files state this book, these weights")
    + "\nEach square of that distance is divided by the weight of its bidder.",
)
PLACES = Kind(
    "place-check",
    ("slots", "cert"),
    (" ", " "),
    "places_texts slots_file cert_file",
    "places_yes _ _ _ answer",
    "places_no _ _ _ _ answer",
    """The bytes of the two files state these slots and this certificate.
No allowed choice is worth more than the one placed, {net}.
No coalition blocks the prices. Their sum, {revenue} with reserves, is least in the core,
and every other core point of that sum lies farther from the Vickrey point.""",
)


def kind_of(first: bytes, count: int) -> Kind | None:
    """The kind of audit by the number of files and the first bytes of the first one."""
    if first.startswith(b"book "):
        return {2: CHECK, 3: WEIGH}.get(count)
    if first.startswith(b"slots "):
        return PLACES if count == 2 else None
    return AUDIT if count == 3 else None


def yes_term(terms: Terms, printed: list[str]) -> str:
    """The expected answer of Coq if it accepts and prints these lines."""
    lines = [terms.line(line.split(" ")) for line in printed]
    terms.definitions.append(f"Definition printed : text := [{'; '.join(lines)}].")
    return '["yes"] :: printed'


def no_term(test: str, place: str) -> str:
    """The expected answer of Coq if a test, such as C8, fails at a place."""
    return f'[["no"; "{test[0]}" ^^ nat_num {test[1]}%nat; num {number_term(place)}]]'


def proof(kind: Kind, files: list[bytes], said: list[str]) -> str:
    """A file of Coq: the bytes of the files, the theorem that Coq's answer is the given one, and what follows from
    it."""
    terms = Terms()
    for name, file, separator in zip(kind.files, files, kind.separators, strict=True):
        terms.text(f"{name}_file", file, separator)
    is_yes = said[0] == "yes"
    answer = yes_term(terms, said[1:]) if is_yes else no_term(*said[0].split(" ")[1:])
    follows = kind.yes if is_yes else kind.no
    return (
        f"{HEAD}{terms}\nLemma answer : {kind.answer} = {answer}.\n"
        f"Proof. vm_cast_no_check (eq_refl ({answer})). Qed.\n\n"
        f"Definition this_audit_is_right := {follows}.\nCheck this_audit_is_right.\n"
        "Print Assumptions this_audit_is_right.\n"
    )


def in_words(kind: Kind, said: list[str]) -> str:
    """What the kernel has accepted, in English."""
    if said[0] == "yes":
        values = dict(line.split(" ", 1) for line in said[-2:])
        return kind.words.format(net=values.get("net") or values["value"], revenue=values["revenue"])
    _, test, place = said[0].split(" ")
    return (
        f"Test {test} of docs/CERTIFICATES.md is the first that fails, and {place} is the first of its places at which "
        "it does."
    )
