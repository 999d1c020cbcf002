"""Completions for bash and zsh: the forms of a program, its options, and files for file arguments."""
from templates import filled

# The names of files in the help of a program: the value of an option, or an argument by position.
FILES = ("FILE", "HISTORY", "PROOF")

BASH = """# Completions of %NAME for bash, made from its --help.
_%NAME() {
    local word=${COMP_WORDS[COMP_CWORD]} form="" words="" files=""
%OF_FORM    case $form in
%WORDS    esac
    case $form:${COMP_WORDS[COMP_CWORD - 1]} in
%VALUES    *) ;;
    esac
    if [[ $files && $word != -* ]]; then
        mapfile -t COMPREPLY < <(compgen -f -- "$word")
    else
        mapfile -t COMPREPLY < <(compgen -W "$words" -- "$word")
    fi
}
complete -o filenames -F _%NAME %NAME
"""
OF_FORM = """    ((COMP_CWORD == 1)) || form=${COMP_WORDS[1]}
"""
ZSH = """#compdef %NAME
# Completions of %NAME for zsh, made from its --help.
local curcontext=$curcontext state line
_arguments -C \\
%SPECS
%BRANCHES"""
ZSH_OF_FORMS = """case $state:$words[1] in
%FORMSesac
"""


def names_of(options):
    """Returns all names of options: `--help`, `-h`."""
    return [name for option in options for name in (option.long, option.short) if name]


def cases_of(program):
    """Returns the forms of a program by the word that chooses them; an empty one for the words before any."""
    return {"": program.own, **{form.words[1]: form for form in program.forms}}


# ---- bash


def bash_words(word, form, program):
    """Returns the branch of a case with the words that may follow a form."""
    forms = [] if word else [one.words[1] for one in program.forms]
    words = " ".join([*forms, *names_of(form.options)])
    files = " files=yes" if form.files else ""
    pattern = word or '""'
    return f'    {pattern}) words="{words}"{files} ;;\n'


def bash_values(word, form):
    """Returns the branches of a case for the value of an option: a file, or anything."""
    lines = ""
    for is_file, does in ((True, 'words="" files=yes'), (False, "return")):
        named = [option.long for option in form.options if option.value and (option.value in FILES) == is_file]
        patterns = " | ".join(f"{word}:{name}" for name in named)
        lines += f"    {patterns}) {does} ;;\n" if named else ""
    return lines


def bash(program):
    """Returns the completions of a program for bash."""
    cases = cases_of(program)
    words = "".join(bash_words(word, form, program) for word, form in cases.items())
    values = "".join(bash_values(word, form) for word, form in cases.items())
    of_form = OF_FORM if program.forms else ""
    return filled(BASH, OF_FORM=of_form, WORDS=words, VALUES=values, NAME=program.name())


# ---- zsh


def quoted(text):
    """Returns a text for a specification between single quotes: signs that would end a part of it are escaped."""
    return "".join(f"\\{one}" if one in "[]:\\\"" else one for one in text).replace("'", "'\\''")


def zsh_option(option):
    """Returns the specifications of an option, one for each of its names."""
    if option.value is None:
        return [f"'{name}[{quoted(option.text)}]'" for name in names_of([option])]
    does = "_files" if option.value in FILES else " "
    return [f"'{option.long}=[{quoted(option.text)}]:{option.value}:{does}'"]


def zsh_specs(form, forms=()):
    """Returns the specifications of a form's arguments, a line each; before any form, one of the forms, and then its
    own."""
    specs = [spec for option in form.options for spec in zsh_option(option)]
    specs += [f"'*:{file.name}: '" if file.is_many else f"'{at}:{file.name}:_files'"
              for at, file in enumerate(form.files, 1)]
    if forms:
        each = " ".join(f'{one.words[1]}\\:"{quoted(one.about)}"' for one in forms)
        specs += [f"'1:form:(({each}))'", "'*::word:->words'"]
    return specs


def zsh_branch(form):
    """Returns the branch of a case with a form's arguments."""
    specs = " \\\n".join(f"        {spec}" for spec in zsh_specs(form))
    return f"words:{form.words[1]})\n    _arguments \\\n{specs}\n    ;;\n"


def zsh(program):
    """Returns the completions of a program for zsh."""
    specs = " \\\n".join(f"    {spec}" for spec in zsh_specs(program.own, program.forms))
    branches = filled(ZSH_OF_FORMS, FORMS="".join(map(zsh_branch, program.forms))) if program.forms else ""
    return filled(ZSH, NAME=program.name(), SPECS=specs, BRANCHES=branches)
