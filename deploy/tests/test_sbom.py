"""The bill of materials of a package, and its check, which finds what is wrong with one."""
import copy
import json
import pathlib
import subprocess
import types
from collections.abc import Callable
from typing import Any

import pytest
from by_path import loaded
from conftest import ROOT

ABOUT = {"package": "admissions 1.2.3", "commit": "c0ffee", "program": {"sha256": "0" * 64}}
ROWS = [
    {"crate": "csv", "upstream": "csv", "version": "1.4.0", "licence": "Unlicense OR MIT"},
    {"crate": "csv_core", "upstream": "csv", "version": "1.4.0", "licence": "Unlicense OR MIT"},
    {"crate": "ucd_table", "upstream": "Unicode Character Database", "version": "16.0.0",
     "licence": "Unicode-3.0"},
    {"crate": "core", "upstream": "-", "version": "-", "licence": "-"},
]
Change = Callable[[dict[str, Any]], object]


@pytest.fixture(name="sbom", scope="module")
def sbom_fixture() -> types.ModuleType:
    return loaded(ROOT / "deploy/sbom")


@pytest.fixture(name="bill")
def bill_fixture(sbom: types.ModuleType) -> dict[str, Any]:
    needed, optional = ["nginx", "python3-flask"], ["weasyprint"]
    found: dict[str, Any] = sbom.made(ABOUT, "2026-01-02", "kit-1", ROWS, needed, optional)
    return copy.deepcopy(found)


def test_each_part_has_a_supplier_and_a_purl(sbom: types.ModuleType, bill: dict[str, Any]) -> None:
    """A port has those of the crate of the kit, and of what it is a port of."""
    assert not list(sbom.errors(bill))
    found = {it["externalRefs"][0]["referenceLocator"]: it["supplier"] for it in bill["packages"]}
    assert found == {
        "pkg:deb/dolfjimme/admissions@1.2.3?arch=amd64": "Organization: Dolfjimme maintainers",
        "pkg:generic/kit-1/csv@kit-1": "Organization: kit-1",
        "pkg:generic/kit-1/csv_core@kit-1": "Organization: kit-1",
        "pkg:cargo/csv@1.4.0": "Organization: the authors of csv",
        "pkg:generic/kit-1/ucd_table@kit-1": "Organization: kit-1",
        "pkg:generic/unicode-character-database@16.0.0": "Organization: Unicode, Inc.",
        "pkg:generic/kit-1/core@kit-1": "Organization: kit-1",
        "pkg:deb/debian/nginx": "Organization: Debian",
        "pkg:deb/debian/python3-flask": "Organization: Debian",
        "pkg:deb/debian/weasyprint": "Organization: Debian",
    }
    related = [(it["spdxElementId"], it["relationshipType"], it["relatedSpdxElement"])
               for it in bill["relationships"]]
    assert ("SPDXRef-crate-csv-core", "DESCENDANT_OF", "SPDXRef-upstream-csv-1.4.0") in related
    assert ("SPDXRef-admissions", "DEPENDS_ON", "SPDXRef-debian-nginx") in related
    assert ("SPDXRef-debian-weasyprint", "OPTIONAL_DEPENDENCY_OF", "SPDXRef-admissions") in related
    assert sum(kind == "STATIC_LINK" for _, kind, _ in related) == len(ROWS)


def test_the_bill_of_the_repository(sbom: types.ModuleType) -> None:
    """It has the kit's crates, and the packages of Debian that the application imports."""
    package = loaded(ROOT / "deploy/package")
    found = package.sbom(ABOUT, "2026-01-02")
    assert not list(sbom.errors(found))
    names = {it["name"] for it in found["packages"]}
    assert {"admissions", *(it["crate"] for it in package.ported()[1])} <= names
    assert {"libc6", "nginx", "python3-flask", "python3-openpyxl", "weasyprint"} <= names


@pytest.mark.parametrize("change, said", [
    (lambda it: it.pop("spdxVersion"), "the document has no spdxVersion"),
    (lambda it: it.update(spdxVersion="SPDX-2.2"), "a spdxVersion of another form"),
    (lambda it: it.update(documentNamespace="urn:a#b"), "a documentNamespace of another form"),
    (lambda it: it.update(more=1), "the document has a field that is not known: more"),
    (lambda it: it["creationInfo"].update(created="2026-01-02"), "a created of another form"),
    (lambda it: it["creationInfo"].update(creators=[]), "creationInfo has no creators"),
    (lambda it: it["creationInfo"].update(creators=["somebody"]), "creationInfo has no creators"),
    (lambda it: it["packages"][1].pop("supplier"), "the package csv has no supplier"),
    (lambda it: it["packages"][1].update(supplier="NOASSERTION"), "a supplier of another form"),
    (lambda it: it["packages"][1].update(externalRefs=[]), "the package csv has no purl"),
    (lambda it: it["packages"][1]["externalRefs"][0].update(referenceLocator="csv@1"),
     "the package csv, a reference has a referenceLocator of another form"),
    (lambda it: it["packages"][1].update(licenseDeclared="MIT or Apache-2.0"),
     "a licenseDeclared of another form"),
    (lambda it: it["packages"][1].pop("downloadLocation"), "has no downloadLocation"),
    (lambda it: it["packages"][1].update(filesAnalyzed=True), "filesAnalyzed false"),
    (lambda it: it["packages"][1].update(SPDXID="SPDXRef-a_b"), "a SPDXID of another form"),
    (lambda it: it["packages"][1].update(SPDXID="SPDXRef-admissions"), "have the same SPDXID"),
    (lambda it: it["packages"][0]["checksums"][0].update(checksumValue="0"), "a checksumValue of"),
    (lambda it: it["relationships"].pop(0), "the document describes nothing"),
    (lambda it: it["relationships"].pop(), "SPDXRef-debian-weasyprint is in no relationship"),
    (lambda it: it["packages"].pop(), "a relationship leads to nothing: SPDXRef-debian-weasyprint"),
    (lambda it: it["relationships"][1].update(relationshipType="LINKS"), "a relationshipType of"),
])
def test_what_is_wrong_is_found(
    change: Change, said: str, sbom: types.ModuleType, bill: dict[str, Any], tmp_path: pathlib.Path,
) -> None:
    change(bill)
    assert said in "\n".join(sbom.errors(bill))
    (tmp_path / "bill").write_text(json.dumps(bill))
    done = subprocess.run([ROOT / "deploy/sbom", tmp_path / "bill"], capture_output=True, text=True,
                          check=False)
    assert (done.returncode, done.stdout, said in done.stderr) == (1, "", True)


def test_the_check_says_what_it_has_seen(bill: dict[str, Any], tmp_path: pathlib.Path) -> None:
    (tmp_path / "bill").write_text(json.dumps(bill))
    done = subprocess.run([ROOT / "deploy/sbom", tmp_path / "bill"], capture_output=True, text=True,
                          check=False)
    assert (done.returncode, done.stdout) == (0, "10 packages, each with a supplier and a purl\n")


def test_a_file_that_is_no_bill(tmp_path: pathlib.Path) -> None:
    for text in ("", "[]", "{}"):
        (tmp_path / "bill").write_text(text)
        done = subprocess.run([ROOT / "deploy/sbom", tmp_path / "bill"], capture_output=True,
                              text=True, check=False)
        assert (done.returncode, "Traceback" in done.stderr) == (1, False)
