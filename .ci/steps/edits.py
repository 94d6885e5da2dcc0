"""Wrong bodies: files of lines `file:`, `old:` and `new:`, as those of must-fail; `add:` is a line at the end of a file, which is made
where it isn't there. `says:` is what the check has to say of it. Other lines tell what the body does."""


def edits(folder, names):
    """Each edit of the folder, or those of these names."""
    return [(path.stem, path.read_text(encoding="utf-8")) for path in sorted(folder.glob("*.edit")) if not names or path.stem in names]


def changed(files, edit):
    """Why the edit can't be applied, if it can't; the files that it makes of these; and what is to be said of them."""
    files, path, old, says = dict(files), None, None, None
    for line in edit.split("\n"):
        word, _, text = line.partition(": ")
        if word == "file":
            path = text
        elif word == "add":
            files[path] = files.get(path, "") + text + "\n"
        elif word == "old":
            old = text
            if files.get(path, "").count(old) != 1:
                return f"{old} doesn't stand once in {path}", files, says
        elif word == "new":
            files[path] = files[path].replace(old, text)
        elif word == "says":
            says = text
    return None if path and says else "it says nothing", files, says
