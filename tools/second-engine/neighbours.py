"""The second reader, judge and page reader, which stand in the folders beside.

They are loaded by their files, since a name such as `corpus` stands in several
of these folders.
"""

import importlib.util
import os

HERE = os.path.dirname(os.path.abspath(__file__))


def load(folder, name):
    path = os.path.join(HERE, "..", folder, name + ".py")
    spec = importlib.util.spec_from_file_location(folder + "/" + name, path)
    module = importlib.util.module_from_spec(spec)
    spec.loader.exec_module(module)
    return module


reader = load("second-reader", "reader")
judge = load("second-reader", "judge")
texts = load("second-reader", "corpus")
web = load("second-web", "web")
