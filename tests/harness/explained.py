"""Explained texts: how a text is read, and the results of a hall's steps. `mud_explain` gives both."""
from harness import inputs
from harness.parts import part
from harness.programs import program
from harness.sessions import count_each, misanswered, named


@part("explained", "texts are explained as is written beside them: Telnet, words, parsed lines, names, keys")
def explain_texts(count):
    words = {one.path: word for word, one in inputs.explained()}
    texts = named(one for _, one in inputs.explained())
    count_each(count, lambda one: misanswered([program("mud_explain"), words[one.path]], one), texts)


@part("halls", "what the desks of a hall do and hear is what is written beside it")
def play_halls(count):
    count_each(count, lambda one: misanswered([program("mud_explain"), "hall"], one), named(inputs.halls()))
