#!/usr/bin/env python3
"""Serves the files of a folder by Flask (Debian's python3-flask), under names that strangers send.

`target` stands where a handler calls `safe_join` of werkzeug. It refuses what that refuses on any system, and names
that some system does not take as they are written, as `nul`, `a:b` and `a.`. No disk is asked: a link in the folder
leads where it leads.

serve_flask.py FOLDER: serves it at http://localhost:5000/files/NAME.
"""

from __future__ import annotations

import sys
from typing import Optional

import flask

from typed_path import CheckedPathError, unix


def target(folder: str, name: str) -> Optional[str]:
    """Where a name leads below the folder, or None where it is refused."""
    try:
        return unix.join_portable(folder, name)
    except CheckedPathError:
        return None


def app_of(folder: str) -> flask.Flask:
    """The application that serves a folder."""
    app = flask.Flask(__name__)

    def served(name: str) -> flask.Response:
        found = target(folder, name)
        if found is None:
            flask.abort(404)
        try:
            return flask.send_file(found)
        except OSError:
            flask.abort(404)

    app.add_url_rule("/files/<path:name>", view_func=served)
    return app


if __name__ == "__main__":
    app_of(sys.argv[1]).run()
