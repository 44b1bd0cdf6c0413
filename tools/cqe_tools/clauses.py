"""The clause form of sentences: numbered clauses over numbered variables, as docs/FORMATS.md says it.

A literal is a number as in DIMACS: variable v of the formats is v + 1 here, and its negation -(v + 1).
"""

TRUE = 1


class Former:
    """The clauses of the sentences that were added, one after the other."""

    def __init__(self, schema):
        self.schema = schema
        self.clauses = [(TRUE,)]
        self.facts = {}  # of each fact that appeared its variable's literal, in the order of appearance
        self.variables = 1

    def add(self, sentence, stated=True):
        """Adds a sentence, or where it isn't stated its negation."""
        literal = self.literal(sentence, ())
        self.append(literal if stated else -literal)

    def mark(self):
        """How far it has come, for `cut`."""
        return len(self.clauses), len(self.facts), self.variables

    def cut(self, mark):
        """Takes away all that was added behind a mark."""
        clauses, facts, self.variables = mark
        del self.clauses[clauses:]
        while len(self.facts) > facts:
            self.facts.popitem()

    def append(self, *literals):
        """One more clause; a literal that stands in it already isn't repeated."""
        self.clauses.append(tuple(dict.fromkeys(literals)))

    def next_variable(self):
        self.variables += 1
        return self.variables

    def literal(self, sentence, constants):
        """What stands for a sentence whose variables are these constants, behind the clauses of its parts."""
        match sentence.sort:
            case "true":
                return TRUE
            case "false":
                return -TRUE
            case "atom":
                return self.of_fact(fact_of(sentence, constants))
            case "=" | "!=":
                return TRUE if is_true_equation(sentence, constants) else -TRUE
            case "not":
                return -self.literal(sentence.parts[0], constants)
            case "forall" | "exists":
                body, = sentence.parts
                instances = [self.literal(body, (*constants, constant))
                             for constant in self.schema.domains[sentence.name]]
                return self.node(sentence.sort, instances)
        return self.node(sentence.sort, [self.literal(part, constants) for part in sentence.parts])

    def of_fact(self, fact):
        if fact not in self.facts:
            self.facts[fact] = self.next_variable()
        return self.facts[fact]

    def node(self, sort, literals):
        """A new variable that is true exactly where its parts make the node true."""
        node = self.next_variable()
        match sort:
            case "and" | "forall":
                self.all_of(node, literals)
            case "or" | "exists":
                self.some_of(node, literals)
            case "->":
                self.some_of(node, [-literals[0], literals[1]])
            case "<->":
                self.both_or_none_of(node, *literals)
        return node

    def all_of(self, node, literals):
        for literal in literals:
            self.append(-node, literal)
        self.append(node, *(-literal for literal in literals))

    def some_of(self, node, literals):
        for literal in literals:
            self.append(node, -literal)
        self.append(-node, *literals)

    def both_or_none_of(self, node, one, other):
        self.append(-node, -one, other)
        self.append(-node, one, -other)
        self.append(node, one, other)
        self.append(node, -one, -other)


def named(term, constants):
    """The constant that a term is, where the variables are these constants."""
    return term if isinstance(term, str) else constants[term]


def fact_of(atom, constants):
    return (atom.name, *(named(term, constants) for term in atom.parts))


def is_true_equation(equation, constants):
    one, other = (named(term, constants) for term in equation.parts)
    return (one == other) == (equation.sort == "=")


def is_true(schema, world, sentence, constants=()):
    """Whether a sentence is true in a world, which is a set of facts."""
    def part(number):
        return is_true(schema, world, sentence.parts[number], constants)

    match sentence.sort:
        case "true" | "false":
            return sentence.sort == "true"
        case "atom":
            return fact_of(sentence, constants) in world
        case "=" | "!=":
            return is_true_equation(sentence, constants)
        case "not":
            return not part(0)
        case "and":
            return part(0) and part(1)
        case "or":
            return part(0) or part(1)
        case "->":
            return not part(0) or part(1)
        case "<->":
            return part(0) == part(1)
    instances = (is_true(schema, world, sentence.parts[0], (*constants, constant))
                 for constant in schema.domains[sentence.name])
    return all(instances) if sentence.sort == "forall" else any(instances)
