"""What the page of the promise says beside definitions: a key to the language's words and those of its library, and a book worked by hand."""

from __future__ import annotations

from workshop.documents.rules import read
from workshop.parts import ROOT

# words of a definition, and what they say. Each name that definitions take of the standard library has to be here
KEY = (
    ("`ensures name { .. }`", "what the call ensures of its result: a statement, with a name"),
    ("`abbrev pub f : A → B`, `unfoldable pub`, `abbrev`, `pub`", "a definition that other files may use: its type, and then its value, for each form that its arguments can have"),
    ("`record R .. where`", "something that has all of these fields; as a statement, all of these hold"),
    ("`data D : Type 0 where`", "something that has one of these forms"),
    ("`Type 0`", "the type of types and of statements: a definition that gives it is a statement about its arguments"),
    ("`A → B`, `(x : A) → B`, `{x : A} → B`", "if A, then B; for each x of A, B, and the same where x is clear from what follows. Of functions: what they take and give"),
    ("`A × B`, `(x : A) × B`", "both A and B; there is an x of A with B"),
    ("`A ⊎ B`", "A or B"),
    ("`Unit {0}`, `⊥`", "holds always; never holds, so that `A → ⊥` says that A doesn't"),
    ("`a ≡ b`", "both are the same"),
    ("`x.f`, `record { f = v }`, `record x { f = v }`", "the field f of x; the value with these fields; x with another value there. A link has one field, `0`: its number"),
    ("`(a, b)`", "a pair"),
    ("`crossing.Out m`, `answer.Rfnm`", "a variant of a type that is declared in Rust"),
    ("`ℕ`, `zero`, `suc n`", "the numbers 0, 1, 2, ..; 0; n + 1. Rust's unsigned numbers are such numbers here, within their range"),
    ("`+`, `*`, `-`, `%`, `min`", "sum, product, difference (0 where it would be less), remainder, the lesser of two"),
    ("`<`, `≤`", "less, at most, as statements"),
    ("`Bool`, `true`, `false`, `not`, `&&`, `||`", "truth values: not, and, or"),
    ("`==`, `nat_lt`, `nat_le`", "equal, less, at most, as truth values"),
    ("`if c then a else b`", "a if c is true, else b"),
    ("`List A`, `[]`, `x ∷ xs`, `xs ++ ys`, `length`", "a list; the empty one; x before xs; one after the other; how many members it has. A text is a `List Bool`"),
    ("`take n xs`, `drop n xs`", "the first n members, or all where there are fewer; what is left without them"),
    ("`slice_index xs n`, `slice_index_or xs n d`", "member n, from 0 on; d where there is none"),
    ("`Contains xs x`, `list_any test xs`, `filter test xs`", "x is a member of xs; whether a member passes the test; those that do"),
    ("`Option A`, `Some x`, `None`, `IsSome`, `option_or`, `option_map f o`", "an x, or nothing; that there is one; the first where there is one, else the second; f of what there is"),
    ("`Result A E`, `Ok x`, `Err e`", "a value, or a fault"),
    ("`Width`, `w16`, `w32`, `byte_len`, `from_be_bytes w xs`", "widths of numbers, of 16 and 32 bits; how many octets one has; the number in these octets, the highest first"),
)

# the parts of the promise, what each asks of a book, and what that is in the book of two octets
WORKED = (
    ("`booked`", "the book has what crossed in its network", "a log is taken for all that crossed: nothing is left out"),
    ("`run`", "each crossing finds its host up and the box as it needs it", "line 10 puts the data into the empty box of the flow 0/2 to 0/1 on link 5, line 11 takes them from it, and line 12, RFNM, is about a message that was taken"),
    ("`formed`", "a life's requests crossed at its stamps, and its bits are the data of messages on the link that the RTS names", "0/1's RTS went out in line 1 (place 0) and names link 5; 0/2's STR came in in line 5 (place 4). The first message on link 5 after both is that of line 11, with the bits `4849`"),
    ("`told`", "each notice of data reports the message that crossed just before it", "after line 10 the user at 0/2 is notified of 16 bits sent, after line 11 the one at 0/1 of 16 bits that have arrived"),
    ("`safe`, messages", "an RFNM's message was taken once, with its text", "line 12 is about the message of line 10, which line 11 took"),
    ("`safe`, partners", "no two lives have one request, and partners name each other", "the own request of 0/1 went out at place 0, that of 0/2 at place 3; what 0/1 took at place 4 is that of place 3, and what 0/2 took at place 1 is that of place 0"),
    ("`safe`, streams", "what was taken is a prefix of what was sent, and that of what was handed over", "`4849` of `4849`, and that of `484950`"),
    ("`safe`, grants", "what was taken and sent is granted", "1 message of 16 bits, where 1 of 100 bits was granted"),
    ("`joined`", "a finished initial connection pairs the right four sockets", "nothing here: no service reports that one is finished"),
    ("`fated`", "each life has a fate, which says whether it is over", "both fates are `Open`, and neither life is over"),
    ("`whole`", "a receiving life that its partner's CLS ended has all that was sent", "nothing here: no fate is `Ended`"),
    ("`arrived`", "an open life counts what came in on its link, and RFNM of data means that they are among its bits", "line 12 is RFNM of the message of line 10, the first one of the life of line 14. Line 11 took it, and it is the first one of the life of line 13, which is open"),
    ("`over`", "nothing ends a life between its requests, and it is over as its fate says", "the life of 0/1 begins with line 5 and that of 0/2 with line 4, the second request of each. Since then no CLS, no RST and no answer but RFNM crossed between them, no host stopped, and nobody asked for a contact: both have the stage `Going false false`, which leaves `Open`"),
    ("`contacts`", "what a host sends to another next after a contact is an RST", "nothing here: there is no contact"),
    ("`within`", "a life that is over counts nothing that crossed later", "nothing here: no life is over"),
    ("`sent`", "the k-th message that a receiving life counts went out as the k-th of the life that it matches", "0/1 took its first message in line 11. The last one of that flow before this went out in line 10, and it is the first one of the life of line 14"),
    ("`between`", "each message of data is one that a sending life counts, and a receiving life matches that one", "the only message on another link than 0 went out in line 10. It is the first one of the life of line 14, which that of line 13 matches"),
    ("`granted`", "what a sending life sent is within what the ALLs grant on its link that its host took", "0/2 took an ALL in line 8, after its own request went out in line 4: it names link 5, one message and 100 bits. The life of line 14 sent one message of 16 bits"),
)


def key() -> str:
    """The key, as a table."""
    rows = "".join(f"| {words} | {meaning} |\n" for words, meaning in ((words.replace("|", "\\|"), meaning) for words, meaning in KEY))
    return f"\n## The words of the language\n\n| Words | What they say |\n|---|---|\n{rows}"


def known_words() -> set[str]:
    """The words that the key explains."""
    return {word for words, _ in KEY for part in words.split("`")[1::2] for word in part.replace(",", " ").split()}


def worked() -> str:
    """The book of two octets, and what each part of the promise says of it."""
    log = read(f"{ROOT}/logs/two-octets").rstrip("\n")
    rows = "".join(f"| {part} | {asks} | {here} |\n" for part, asks, here in WORKED)
    return (
        "\n## A book to try it on\n\nThis is [logs/two-octets](../../logs/two-octets), which [the audit's page](../audit.md#a-log-by-hand) explains line by line: twelve crossings, two lives, "
        f"and what was handed over in each.\n\n```text\n{log}\n```\n\n| Part | Asks | In this book |\n|---|---|---|\n{rows}"
    )
