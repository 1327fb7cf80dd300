"""Builds the package with the standard library alone, so that `pip install .` needs no network."""

from __future__ import annotations

import base64
import hashlib
import re
import tarfile
import zipfile
from pathlib import Path
from typing import Any, Dict, Optional

HERE = Path(__file__).resolve().parent
PROJECT = (HERE / 'pyproject.toml').read_text(encoding='utf-8')
TIME = (2026, 1, 1, 0, 0, 0)        # of every file in a wheel, so that it is the same each time


def told(key: str) -> str:
    """What the project file says under a key."""
    found = re.search(r'^%s = "(.*)"$' % key, PROJECT, re.MULTILINE)
    assert found, key
    return found.group(1)


NAME = '%s-%s' % (told('name'), told('version'))
METADATA = '''Metadata-Version: 2.1
Name: %s
Version: %s
Summary: %s
Requires-Python: %s
Provides-Extra: table
Requires-Dist: pandas>=1.2; extra == 'table'
''' % (told('name'), told('version'), told('description'), told('requires-python'))
WHEEL = 'Wheel-Version: 1.0\nGenerator: backend\nRoot-Is-Purelib: true\nTag: py3-none-any\n'


def sources() -> Dict[str, bytes]:
    """The package's files."""
    files = sorted((HERE / 'jehmulka').glob('*.py')) + [HERE / 'jehmulka' / 'py.typed']
    return {'jehmulka/' + file.name: file.read_bytes() for file in files}


def record_of(files: Dict[str, bytes], name: str) -> bytes:
    """The wheel's list of files with their hashes."""
    lines = []
    for path, data in files.items():
        digest = base64.urlsafe_b64encode(hashlib.sha256(data).digest()).rstrip(b'=')
        lines.append('%s,sha256=%s,%d\n' % (path, digest.decode('ascii'), len(data)))
    return (''.join(lines) + name + ',,\n').encode('utf-8')


def build_wheel(wheel_directory: str, config_settings: Optional[Dict[str, Any]] = None,
                metadata_directory: Optional[str] = None) -> str:
    """Writes the wheel, and answers its name."""
    files = sources()
    files[NAME + '.dist-info/METADATA'] = METADATA.encode('utf-8')
    files[NAME + '.dist-info/WHEEL'] = WHEEL.encode('utf-8')
    record = NAME + '.dist-info/RECORD'
    files[record] = record_of(files, record)
    name = NAME + '-py3-none-any.whl'
    with zipfile.ZipFile(Path(wheel_directory) / name, 'w', zipfile.ZIP_DEFLATED) as wheel:
        for path, data in files.items():
            wheel.writestr(zipfile.ZipInfo(path, TIME), data, zipfile.ZIP_DEFLATED)
    return name


def build_sdist(sdist_directory: str, config_settings: Optional[Dict[str, Any]] = None) -> str:
    """Writes the sources as an archive, and answers its name."""
    name = NAME + '.tar.gz'
    with tarfile.open(Path(sdist_directory) / name, 'w:gz') as archive:
        for path in ['pyproject.toml', 'backend.py'] + list(sources()):
            archive.add(HERE / path, NAME + '/' + path)
    return name
