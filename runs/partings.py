"""Where trees of one text part, worked out from what a grammar means and not by the program.

The moves of a tree are its leaves and nodes from the left, each node behind what is below it: for a leaf a shift, which is
None, and for a node a reduction, which is its production. Two trees of one text part at the first move that differs. Up to
there both have put the same symbols on the stack, and have the same rest of the text before them.
"""

MORE = 3  # So many symbols more than tokens may be on a stack.


class Rests:
    """Short rests of texts behind lists of symbols. A set of texts is a row of numbers, one for each length, with a bit for
    each text; a text is a number with its tokens as digits, the first one the highest."""

    def __init__(self, canonical, least, length, most):
        self.canonical, self.grammar, self.length = canonical, canonical.grammar, length
        self.count, self.is_whole = max(1, len(self.grammar.tokens)), True
        self.stacks = self.found_stacks(least, most)
        self.rests = {stack: [0] * (length + 1) for stack in self.stacks}
        self.settle()

    def found_stacks(self, least, most):
        """The stacks whose lists have a text that is short enough, each with the length of its shortest text."""
        found = {(0,): 0}
        to_do = [(0,)]
        for stack in to_do:
            for symbol, target in self.canonical.states[stack[-1]].edges.items():
                length = found[stack] + least.text([symbol])
                if length > self.length:
                    continue
                if len(stack) > self.length + MORE or len(found) == most:
                    self.is_whole = False
                    continue
                found[*stack, target] = length
                to_do.append((*stack, target))
        return found

    def settle(self):
        """Adds to the rests until there are no more."""
        order, is_done = sorted(self.stacks, key=lambda it: (-self.stacks[it], len(it))), False
        while not is_done:
            is_done = True
            for stack in order:
                rest = self.rest(stack)
                is_done = is_done and rest == self.rests[stack]
                self.rests[stack] = rest

    def rest(self, stack):
        """What the moves behind the stack give."""
        tokens = [it for it in self.canonical.states[stack[-1]].edges if not isinstance(it, bytes)]
        found = [0] * (self.length + 1)
        prods = self.canonical.complete[stack[-1]]
        for move, token in [*((None, token) for token in tokens), *((prod, None) for prod in prods)]:
            for length, texts in enumerate(self.behind(stack, move, token)):
                found[length] |= texts
        return found

    def behind(self, stack, move, token):
        """The texts from this place on by the move, which begin with the token if one is named."""
        none = [0] * (self.length + 1)
        if move is None:
            shifted = self.rests.get((*stack, self.canonical.states[stack[-1]].edges.get(token)), none)
            return [0, *(texts << token * self.count**length for length, texts in enumerate(shifted[:-1]))]
        rule, body = self.grammar.prods[move]
        if rule == b"^":
            return [1, *none[1:]]
        left = stack[: len(stack) - len(body)]
        return self.rests.get((*left, self.canonical.states[left[-1]].edges[rule]), none)

    def begun(self, texts, token):
        """Those of the texts that begin with the token."""
        sizes = [self.count**length for length in range(self.length)]
        return [0, *(it & ((1 << size) - 1) << token * size for size, it in zip(sizes, texts[1:]))]

    def shared(self, items, pair, token):
        """A stack with these core items, with the length and number of a rest that begins with the token and can be read by
        each of the two moves; None if there is none."""
        for stack, length in self.stacks.items():
            if self.canonical.states[stack[-1]].core.keys() == items:
                one, other = (self.begun(self.behind(stack, move, token), token) for move in pair)
                for size, texts in enumerate(a & b for a, b in zip(one, other)):
                    if texts and length + size <= self.length:
                        return stack, size, texts.bit_length() - 1
        return None
