"""Files and folders that root makes where another user may write: what that user puts in their
place gets neither owner nor mode nor content."""
import os
import pathlib
import stat

import pytest
from machine import files
from register_files import Refused

OTHERS = 0o777


@pytest.fixture(name="theirs")
def theirs_fixture(tmp_path: pathlib.Path, write_as_me: None) -> pathlib.Path:
    """A folder in which another user may write."""
    path = tmp_path / "theirs"
    path.mkdir()
    path.chmod(OTHERS)
    return path


def mode_of(path: pathlib.Path) -> int:
    return stat.S_IMODE(path.stat().st_mode)


def test_a_folder_that_somebody_has_made_a_link_is_refused_and_its_target_stays(
    theirs: pathlib.Path, tmp_path: pathlib.Path
) -> None:
    target = tmp_path / "target"
    target.mkdir(mode=0o700)
    (theirs / "office").symlink_to(target)
    with pytest.raises(Refused, match="theirs/office cannot be opened: it is no folder, or a link"):
        files.folder(theirs / "office", 0o750)
    assert mode_of(target) == 0o700


def test_nor_is_one_made_below_such_a_link(theirs: pathlib.Path, tmp_path: pathlib.Path) -> None:
    target = tmp_path / "target"
    target.mkdir()
    (theirs / "office").symlink_to(target)
    with pytest.raises(Refused, match="theirs/office cannot be opened"):
        files.folder(theirs / "office" / "copies", 0o750)
    with pytest.raises(Refused, match="theirs/office cannot be opened"):
        files.write(theirs / "office" / "numbers", "1\n", 0o644)
    assert not list(target.iterdir())


def test_a_link_in_a_folder_of_one_s_own_is_followed(
    tmp_path: pathlib.Path, write_as_me: None
) -> None:
    """As that by which an administrator moves /var/backups to another disk."""
    (tmp_path / "disk").mkdir()
    (tmp_path / "backups").symlink_to(tmp_path / "disk")
    assert files.folder(tmp_path / "backups" / "secondary-2025", 0o710)
    assert mode_of(tmp_path / "disk" / "secondary-2025") == 0o710
    assert not files.folder(tmp_path / "backups" / "secondary-2025", 0o710)


def test_a_file_that_is_swapped_before_it_gets_its_mode_gives_it_to_no_other(
    theirs: pathlib.Path, tmp_path: pathlib.Path, monkeypatch: pytest.MonkeyPatch
) -> None:
    secret = tmp_path / "secret"
    secret.write_text("of root alone\n", encoding="utf-8")
    secret.chmod(0o600)
    sync = os.fsync

    def swap(handle: int) -> None:
        """Whoever may write in the folder puts a link in place of each file there."""
        sync(handle)
        for path in theirs.iterdir():
            path.unlink()
            path.symlink_to(secret)

    monkeypatch.setattr(os, "fsync", swap)
    files.write(theirs / "numbers", "1\n", 0o644)
    assert (mode_of(secret), secret.read_text(encoding="utf-8")) == (0o600, "of root alone\n")


def test_what_a_link_leads_to_is_not_written(theirs: pathlib.Path, tmp_path: pathlib.Path) -> None:
    secret = tmp_path / "secret"
    secret.write_text("1\n", encoding="utf-8")
    secret.chmod(0o600)
    (theirs / "numbers").symlink_to(secret)
    assert files.write(theirs / "numbers", "1\n", 0o644)
    assert not (theirs / "numbers").is_symlink()
    assert (mode_of(theirs / "numbers"), mode_of(secret)) == (0o644, 0o600)


def test_a_file_that_cannot_be_replaced_leaves_nothing_beside_it(theirs: pathlib.Path) -> None:
    (theirs / "numbers").mkdir()
    with pytest.raises(OSError):
        files.write(theirs / "numbers", "1\n", 0o644)
    assert [it.name for it in theirs.iterdir()] == ["numbers"]
