"""Parts of the doctor that no folder shows by itself: numbers of lines, mended copies, and faults of streams."""

from pathlib import Path

import pytest

from hsp.base.programs import Programs
from hsp.doctor import answer_faults, faults, toml_faults
from hsp.doctor.findings import Text
from hsp.doctor.numbers_advice import advice
from hsp.doctor.printing import lines
from hsp.doctor.question import Draft, Mend, Question, Said
from hsp.doctor.table_faults import Faulty, numbered_row, open_quote

from printed import assert_kept


def text_of(lines: str, path: str = "demand.csv") -> Text:
    return Text(path, lines.encode())


def question_of(kind: str, lines: str) -> Question:
    return Question(Programs(), "plan", {kind: Draft(text_of(lines))})


def row_of(text: str, number: int = 0) -> Faulty | None:
    question = question_of("demand", f"region,handle,count\n{text}\n")
    return numbered_row(question, "demand", Said(1, "", numbers={"row": number}))


def test_a_line_below_those_that_were_put_in_has_its_own_number() -> None:
    draft = Draft(text_of("eu,a\n")).with_text("region,handle\neu,a\n", above=1)
    assert [draft.number(it) for it in (1, 2, 3)] == [1, 1, 2]
    assert [draft.with_text("x\n", above=1).number(it) for it in (1, 2, 3, 4)] == [1, 1, 1, 2]


def test_an_open_quote_is_taken_out_and_nothing_else() -> None:
    question = question_of("demand", 'region,handle,count\neu,"20.500.1/a,1\neu,20.500.1/b,2\n')
    faulty = numbered_row(question, "demand", Said(1, "demand: Fields row 0", "demand", "Fields", numbers={"row": 0}))
    assert faulty
    found = open_quote(faulty)
    assert found and found[0].mended == "eu,20.500.1/a,1"
    mended = question.with_mends("demand", [Mend(faulty.row, faulty.row.first, found[0].mended)])
    assert mended.text("demand").lines[1:3] == ["eu,20.500.1/a,1", "eu,20.500.1/b,2"]
    assert (found[1].line, found[1].column) == (2, 4)


def test_one_bracket_is_said_of_a_table_and_of_no_other_head() -> None:
    table = toml_faults.slip_of(text_of("[site]\n", "s.toml"), 1, "")
    other = toml_faults.slip_of(text_of("[[site]\n", "s.toml"), 1, "")
    assert table.why == "one bracket makes one table; sites and hosts are lists"
    assert other.why == "a head of a block has two brackets on each side"
    assert table.line == other.line == "[[site]]"


def test_an_answer_that_cannot_be_written(tmp_path: Path) -> None:
    question = question_of("log", "region,handle\n")
    one = answer_faults.streams(question, Said(5, "log: WriteFailed", "log", "WriteFailed")).finding
    assert one
    assert one.message == "an answer can't be written"
    assert one.remedy == "make room on the disk, or keep the reader of the pipe open"
    assert one.why == "a full disk, or a closed pipe"
    other = answer_faults.streams(question, Said(5, "log: ReadFailed", "log", "ReadFailed")).finding
    assert other and other.message == "the log can't be read to its end" and other.remedy.endswith("> /dev/null")
    folder = Question(Programs(), "dispatch", {"log": Draft(Text(str(tmp_path), b""))})
    third = answer_faults.streams(folder, Said(5, "log: ReadFailed", "log", "ReadFailed")).finding
    assert third and (third.why, third.remedy) == ("a folder, not a file", "give the file in it")


@pytest.mark.parametrize("name", ["count", "cost", "capacity", "server_id", "front"])
def test_what_is_advised_of_a_number(name: str) -> None:
    """Of a number beyond its limit each column has words of its own."""
    texts = ["99999999999", " 5", "x", "1.50", "2,5", "0,4", "2.5", "-7", "3k", "1,5M"]
    found = [advice(it, name) for it in texts]
    assert_kept("parts", f"advice: {name}", "".join(f"{text!r}: {it}\n" for text, it in zip(texts, found)))


def test_faults_that_no_small_file_has() -> None:
    """A row far behind, a log that is too long, memory that ran out, and a line that no version knows."""
    question = question_of("log", "region,handle\n")
    far = Said(1, "log: BadHandle row 9999999 NoSlash", "log", "BadHandle", "NoSlash", "", {"row": 9_999_999})
    long = Said(1, "log: LogTooLong", "log", "LogTooLong")
    memory, other = Said(4, "OutOfMemory", "", "OutOfMemory"), Said(1, "demand: Strange", "demand", "Strange")
    for name, said in (("far", far), ("long", long), ("memory", memory), ("other", other), ("nothing", Said(9, ""))):
        found = faults.explained(question, said, None)
        assert found.finding and not found.is_whole_row and list(found.mended) == []
        assert_kept("parts", f"part: {name}", "\n".join(lines([found.finding])))


def test_octets_of_files_are_counted_where_memory_ran_out() -> None:
    question = Question(Programs(), "plan", {"demand": Draft(text_of("a\n")), "costs": Draft(text_of("bcd\n"))})
    (only,) = answer_faults.memory(question, Said(4, "OutOfMemory"))
    assert only.finding and only.finding.why == "the files have 6 octets" and only.mended == []
