"""What a tool writes: texts, each into its file below a folder."""


def write(folder, files):
    """Makes the files anew, with the folders that they want."""
    for place, text in files:
        file = folder / place
        file.parent.mkdir(parents=True, exist_ok=True)
        file.write_text(text)
