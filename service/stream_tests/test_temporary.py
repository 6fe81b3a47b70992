"""The folders of services that keep no copy."""

import os
from pathlib import Path

import pytest
from conftest import StartOffice
from servers import RedisServer
from wagons_service import temporary
from wagons_service.journal import Folder


@pytest.fixture
def there(tmp_path: Path, monkeypatch: pytest.MonkeyPatch) -> Path:
    """The folder for temporary ones."""
    found = tmp_path / "temporary"
    found.mkdir()
    monkeypatch.setenv("TMPDIR", str(found))
    monkeypatch.setattr("tempfile.tempdir", None)
    return found


def test_a_kill_leaves_its_folder_until_the_next_start(server: RedisServer, start_office: StartOffice, there: Path) -> None:
    in_use = start_office(server.address("south")).until_listening()
    south = set(os.listdir(there))
    start_office(server.address("north")).until_listening().kill()
    (left,) = set(os.listdir(there)) - south
    last = start_office(server.address("north")).until_listening()
    assert left not in os.listdir(there) and south < set(os.listdir(there)) and len(os.listdir(there)) == 2
    assert in_use.stop() == 0 and last.stop() == 0 and not os.listdir(there)


def test_no_other_folder_is_removed(there: Path) -> None:
    """Neither one that is in use, nor one that isn't locked yet, nor a copy, wherever it was before."""
    used, starting, left, saved = (temporary.folder(None) for _ in range(4))
    lock = Folder(used)
    for path in left, saved:
        Folder(path).close()
    assert temporary.folder(saved) == saved
    copy = temporary.folder(str(there / f"{temporary.PREFIX}copy"))
    Folder(copy).close()
    (there / f"{temporary.PREFIX}file").write_text("")
    (there / f"{temporary.PREFIX}link").symlink_to(saved)
    before = set(os.listdir(there))
    new = temporary.folder(None)
    assert set(os.listdir(there)) == before - {Path(left).name} | {Path(new).name}
    lock.close()
    # One that was killed before it was locked goes when nobody can be starting there any more.
    os.utime(starting, (0, 0))
    temporary.folder(None)
    assert not os.path.exists(used) and not os.path.exists(starting) and os.path.exists(f"{saved}/1") and os.path.exists(f"{copy}/1")
