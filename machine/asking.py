"""Asks `register_image`: each question is a line, and its answer is one line or, for tables, several."""
import subprocess


class Refused(Exception):
    """The program does not answer so."""


def asked(program, questions):
    """The lines that the program answers."""
    done = subprocess.run([program], input='\n'.join(questions), stdout=subprocess.PIPE, text=True)
    if done.returncode:
        raise Refused(f'{program} ended with status {done.returncode} on {len(questions)} questions')
    return done.stdout.splitlines()


def numbers(words):
    return [int(word, 16) for word in words]


def values(program, questions):
    """The words behind the first one of each answer, of questions that have one line each."""
    lines = asked(program, questions)
    if len(lines) != len(questions):
        raise Refused(f'{len(lines)} answers to {len(questions)} questions')
    for question, line in zip(questions, lines):
        if line.split()[0] != question.split()[0]:
            raise Refused(f'{line!r} is the answer to {question!r}')
    return [line.split()[1:] for line in lines]


def numbers_named(program, questions):
    """The numbers of values that are asked for by the names of flags."""
    found = values(program, questions)
    for question, words in zip(questions, found):
        if words == ['none']:
            raise Refused(f'{question!r} names what is no flag')
    return [int(words[0], 16) for words in found]


def spelled(question, *more):
    return ' '.join([question, *(f'{number:x}' for number in more)])
