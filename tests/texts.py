"""Texts of the line program: what it prints, cut up into the answers to single lines, and the lines of a save without one of its loads."""


def follows(answer, line):
    """Is a printed line a further one of an answer that has these lines so far? Plans, checks and saves have more lines than one."""
    if answer[0] == 'clear':
        return not answer[-1].startswith('budget,')
    return line[:1].isdigit()


def grouped(printed):
    """The answers, each with its lines."""
    answers = []
    for line in printed:
        if answers and follows(answers[-1], line):
            answers[-1].append(line)
        else:
            answers.append([line])
    return answers


def entered_without(lines, load):
    """Lines without the one that enters a load, and with the parents above it one less."""
    kept, number = [], 0
    for line in lines:
        word, *fields = line.split(',')
        number += word == 'load'
        if word == 'load' and int(fields[0]) > load:
            line = ','.join([word, str(int(fields[0]) - 1), *fields[1:]])
        if word != 'load' or number != load:
            kept.append(line)
    return kept
