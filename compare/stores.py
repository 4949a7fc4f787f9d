"""Stores as files of a folder: the bytes of each by its name, as `taxonomy/commit-2`."""

import os
import shutil

DIRECTORIES = ("taxonomy", "index")


def load(folder):
    stored = {}
    for directory in DIRECTORIES:
        if os.path.isdir(os.path.join(folder, directory)):
            for name in os.listdir(os.path.join(folder, directory)):
                with open(os.path.join(folder, directory, name), "rb") as file:
                    stored[f"{directory}/{name}"] = file.read()
    return stored


def save(folder, stored):
    shutil.rmtree(folder, ignore_errors=True)
    for name, data in stored.items():
        os.makedirs(os.path.join(folder, os.path.dirname(name)), exist_ok=True)
        with open(os.path.join(folder, name), "wb") as file:
            file.write(data)
