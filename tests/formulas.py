"""Formulas: expressions, their tables in every numbering, and generators of formulas with a type and without, of which most run.

An expression is a tuple: a node's kind, and its fields with expressions for the children. A type to aim at is UNIT, BOOL, INT, a letter for
a type of which nothing is known, or a pair for an arrow."""

UNIT, BOOL, INT = "unit", "bool", "int"
BASES = [UNIT, BOOL, INT, INT, "p", "q", "r"]
PLUS, MINUS, TIMES, DIVIDE, MOD, LESS, GREATER, AT_MOST, AT_LEAST, EQUAL = range(10)
LEAST, GREATEST = -2 ** 31, 2 ** 31 - 1
NOTHING, TRUE, FALSE = (0,), (1, 1), (1, 0)


# ---- Expressions

def integer(n):
    return (2, n % 2 ** 32)


ZERO, ONE, TWO = integer(0), integer(1), integer(2)


def name(x):
    return (4, x)


def apply(function, *arguments):
    for argument in arguments:
        function = (5, function, argument)
    return function


def operation(number, left, right):
    return apply((3, number), left, right)


def choose(condition, then, other):
    return (6, condition, then, other)


def fun(*names_and_body):
    *names, expression = names_and_body
    for x in reversed(names):
        expression = (7, x, expression)
    return expression


def let(x, bound, body):
    return (8, x, bound, body)


def rec(x, body):
    return (9, x, body)


def words_of(nodes):
    return [word for node in nodes for word in node]


def table_of(expression, rng=None):
    """The words of an expression, its nodes in an order in which children come after parents: breadth first, or with `rng` that, or in
    preorder from either side, or in any order, where the next node is taken from all open parts and siblings come apart."""
    order = rng.random() if rng else 0
    nodes, open_parts, taken = [], [(expression, None, 0)], 0
    while taken < len(open_parts):
        if order < 0.2:
            part, parent, field = open_parts[taken]
            taken += 1
        else:
            part, parent, field = open_parts.pop(-1 if order < 0.4 else int(rng.random() * len(open_parts)))
        if parent:
            parent[field] = len(nodes)
        node = [value if type(value) is int else 0 for value in part] + [0] * (4 - len(part))
        nodes.append(node)
        kids = [(value, node, at) for at, value in enumerate(part) if type(value) is tuple]
        open_parts += kids[::-1] if 0.2 <= order < 0.3 else kids
    return words_of(nodes)


# ---- Expressions of a type

def some_name(rng):
    """Of few names, so that many are bound again within their scope; now and then of all."""
    return rng.randrange(5) if rng.random() < 0.9 else rng.randrange(65536)


def some_names(rng, count):
    """Different ones."""
    return rng.sample(range(7), count)


def some_integer(rng):
    way = rng.random()
    if way < 0.85:
        return integer(rng.randrange(-3, 10))
    return integer(rng.choice([65536, LEAST, GREATEST]) if way < 0.9 else rng.getrandbits(32 if way < 0.95 else 12))


def some_constant(rng):
    return rng.choice([NOTHING, (1, rng.randrange(2)), some_integer(rng), (3, rng.randrange(10))])


def some_type(rng, depth=2):
    if depth == 0 or rng.random() < 0.6:
        return rng.choice(BASES)
    return (some_type(rng, depth - 1), some_type(rng, depth - 1))


def small(rng, goal, env):
    """An expression of few nodes with the type that is aimed at; rec x -> x has every type."""
    fitting = [x for x, t in env.items() if t == goal]
    if fitting and rng.random() < 0.8:
        return name(rng.choice(fitting))
    if goal in (UNIT, BOOL, INT):
        return {UNIT: NOTHING, BOOL: (1, rng.randrange(2)), INT: some_integer(rng)}[goal]
    if goal in ((INT, (INT, INT)), (INT, (INT, BOOL))):
        return (3, rng.randrange(5) + 5 * (goal[1][1] == BOOL))
    x = some_name(rng)
    if type(goal) is tuple:
        return fun(x, small(rng, goal[1], {**env, x: goal[0]}))
    return name(rng.choice(fitting)) if fitting else rec(x, name(x))


def typed(rng, goal, env, size):
    """An expression of about so many nodes with the type that is aimed at, for names of the types in `env`."""
    if size < 3:
        return small(rng, goal, env)
    x, size = some_name(rng), size - 1
    way = rng.random()
    if type(goal) is tuple and way < 0.5:
        return fun(x, typed(rng, goal[1], {**env, x: goal[0]}, size))
    if goal in (INT, BOOL) and way < 0.3:
        operator = rng.randrange(5) + 5 * (goal == BOOL)
        return operation(operator, typed(rng, INT, env, size // 2), typed(rng, INT, env, size // 2))
    if way < 0.65:
        functions = [(y, t) for y, t in env.items() if type(t) is tuple and t[1] == goal]
        if functions:
            y, (takes, _) = rng.choice(functions)
            return apply(name(y), typed(rng, takes, env, size - 1))
        takes = some_type(rng)
        return apply(typed(rng, (takes, goal), env, size // 2), typed(rng, takes, env, size // 2))
    if way < 0.8:
        bound = some_type(rng)
        return let(x, typed(rng, bound, env, size // 2), typed(rng, goal, {**env, x: bound}, size // 2))
    if way < 0.9:
        return choose(typed(rng, BOOL, env, size // 3), typed(rng, goal, env, size // 3), typed(rng, goal, env, size // 3))
    return rec(x, typed(rng, goal, {**env, x: goal}, size))


# ---- Ways to an end. Each is given a function from the types of the names in scope to the expression that is evaluated last. What it
# makes has that expression's type, or none where it applies a name to itself.

def without(env, *names):
    return {x: t for x, t in env.items() if x not in names}


def less_one(n):
    return operation(MINUS, name(n), ONE)


def is_done(n):
    return operation(AT_MOST, name(n), ZERO)


def turns(rng):
    return integer(rng.choice([0, 1, 1, 2, 2, 3, 3, 4, 5, 6, 7]))


def by_let(rng, env, end):
    """let x = .. in let x = .. in .. END"""
    bound = [(some_name(rng), rng.choice([INT, INT, BOOL, UNIT, (INT, INT), some_type(rng)])) for _ in range(rng.randrange(1, 5))]
    envs = [env]
    for x, t in bound:
        envs.append({**envs[-1], x: t})
    expression = end(envs[-1])
    for (x, t), outer in zip(reversed(bound), reversed(envs[:-1])):
        expression = let(x, typed(rng, t, outer, rng.choice([1, 4, 7])), expression)
    return expression


def by_call(rng, env, end):
    """(fun x -> fun y -> .. END) .. ..: all arguments at once, or some of them first."""
    takes = [(some_name(rng), rng.choice([INT, INT, BOOL, UNIT, (INT, BOOL), some_type(rng)])) for _ in range(rng.randrange(1, 4))]
    inner = dict(env)
    inner.update(takes)
    function = fun(*[x for x, _ in takes], end(inner))
    arguments = [typed(rng, t, env, rng.choice([1, 4, 7])) for _, t in takes]
    if len(takes) < 3 or rng.random() < 0.5:
        return apply(function, *arguments)
    g, = some_names(rng, 1)
    last = typed(rng, takes[-1][1], without(env, g), 3)
    return let(g, apply(function, *arguments[:-1]), apply(name(g), last))


def by_countdown(rng, env, end):
    """(rec f -> fun n -> if <= n 0 then END else f (- n 1)) .."""
    f, n = some_names(rng, 2)
    body = choose(is_done(n), end({**without(env, f), n: INT}), apply(name(f), less_one(n)))
    return apply(rec(f, fun(n, body)), turns(rng))


def by_accumulator(rng, env, end):
    """(rec f -> fun a -> fun n -> if <= n 0 then END else f (.. a n) (- n 1)) .. .."""
    f, a, n = some_names(rng, 3)
    inner = {**without(env, f), a: INT, n: INT}
    more = operation(rng.choice([PLUS, PLUS, MINUS, TIMES, MOD]), *rng.sample([name(a), name(n)], 2))
    more = more if rng.random() < 0.7 else typed(rng, INT, inner, 5)
    body = choose(is_done(n), end(inner), apply(name(f), more, less_one(n)))
    return apply(rec(f, fun(a, n, body)), typed(rng, INT, env, 2), turns(rng))


def by_fold(rng, env, end):
    """let fold = rec f -> fun g -> fun a -> fun n -> if = n 0 then a else f g (g a n) (- n 1) in let x = fold .. .. .. in END"""
    f, g, a, n = some_names(rng, 4)
    fold = rec(f, fun(g, a, n, choose(operation(EQUAL, name(n), ZERO), name(a),
                                      apply(name(f), name(g), apply(name(g), name(a), name(n)), less_one(n)))))
    inner = without(env, f)
    step = (3, rng.choice([PLUS, MINUS, TIMES])) if rng.random() < 0.5 else fun(a, n, typed(rng, INT, {**inner, a: INT, n: INT}, 5))
    return let(f, fold, let(a, apply(name(f), step, some_integer(rng), turns(rng)), end({**inner, a: INT})))


def by_composition(rng, env, end):
    """let o = fun f -> fun g -> fun x -> f (g x) in o (fun x -> END) .. .."""
    o, f, g, x = some_names(rng, 4)
    inner = without(env, o)
    last = fun(x, end({**inner, x: INT}))
    first = apply((3, rng.choice([PLUS, MINUS, TIMES])), typed(rng, INT, inner, 2))
    first = first if rng.random() < 0.6 else typed(rng, (INT, INT), inner, 5)
    return let(o, fun(f, g, x, apply(name(f), apply(name(g), name(x)))), apply(name(o), last, first, typed(rng, INT, inner, 3)))


def by_closure(rng, env, end):
    """let make = fun x -> fun y -> END in let k = make .. in k ..: the name x is out of scope when END is evaluated."""
    make, k, x, y = some_names(rng, 4)
    t = rng.choice([INT, BOOL, (INT, INT)])
    function = fun(x, y, end({**env, x: t, y: INT}))
    inner = without(env, make)
    return let(make, function, let(k, apply(name(make), typed(rng, t, inner, 4)), apply(name(k), typed(rng, INT, without(inner, k), 3))))


def by_parity(rng, env, end):
    """if (rec f -> fun even -> fun n -> if = n 0 then even else f (if even then false else true) (- n 1)) true .. then END else END"""
    f, even, n = some_names(rng, 3)
    other = choose(name(even), FALSE, TRUE)
    body = choose(operation(EQUAL, name(n), ZERO), name(even), apply(name(f), other, less_one(n)))
    return choose(apply(rec(f, fun(even, n, body)), (1, rng.randrange(2)), turns(rng)), end(env), end(env))


def by_twice(rng, env, end):
    """let twice = fun f -> fun x -> f (f x) in let x = twice (twice ..) .. in END"""
    t, f, x = some_names(rng, 3)
    inner = without(env, t)
    function = typed(rng, (INT, INT), inner, rng.choice([2, 5]))
    for _ in range(rng.randrange(1, 3)):
        function = apply(name(t), function)
    return let(t, fun(f, x, apply(name(f), apply(name(f), name(x)))),
               let(x, apply(function, some_integer(rng)), end({**inner, x: INT})))


def by_itself(rng, env, end):
    """(fun f -> f f ..) (fun f -> fun n -> if <= n 0 then END else f f (- n 1)), which has no type."""
    f, n = some_names(rng, 2)
    body = choose(is_done(n), end({**without(env, f), n: INT}), apply(name(f), name(f), less_one(n)))
    return apply(fun(f, apply(name(f), name(f), turns(rng))), fun(f, n, body))


WAYS = 2 * [by_countdown, by_accumulator] + [by_let, by_call, by_fold, by_composition, by_closure, by_parity, by_twice]


def after(rng, env, end, ways, count):
    """The end after so many ways to it, one within the other."""
    if count == 0:
        return end(env)
    return rng.choice(ways)(rng, env, lambda inner: after(rng, inner, end, ways, count - 1))


# ---- Ends, and what may be around one that is an integer or never comes back

def one_of(goal, size):
    return lambda rng, env: typed(rng, goal, env, size)


def a_function(rng, env):
    way = rng.random()
    if way < 0.2:
        return (3, rng.randrange(10))
    if way < 0.4:
        return apply((3, rng.randrange(10)), typed(rng, INT, env, 3))
    x = some_name(rng)
    return fun(x, typed(rng, rng.choice([INT, BOOL, UNIT]), {**env, x: INT}, 4))


def a_division_by_zero(rng, env):
    return operation(rng.choice([DIVIDE, MOD]), typed(rng, INT, env, 3), ZERO)


def an_overflow(rng, env):
    return rng.choice([operation(PLUS, integer(GREATEST), integer(rng.randrange(1, 9))), operation(MINUS, integer(LEAST), ONE),
                       operation(TIMES, integer(65536), integer(rng.choice([32768, -32769, 65536]))),
                       operation(DIVIDE, integer(LEAST), integer(-1))])


def something_stuck(rng, env):
    number, truth = typed(rng, INT, env, 3), typed(rng, BOOL, env, 3)
    operator = rng.randrange(10)
    return rng.choice([apply(number, truth), apply(truth, number), apply(NOTHING, number), choose(number, truth, truth),
                       choose(a_function(rng, env), number, number), operation(operator, truth, number), operation(operator, number, truth),
                       operation(operator, number, (3, operator)), operation(operator, truth, truth),
                       apply(operation(MINUS, number, ONE), number)])


def something_endless(rng, env):
    f, n = some_names(rng, 2)
    again = apply(rec(f, fun(n, apply(name(f), operation(PLUS, name(n), ONE)))), ZERO)
    itself = fun(n, apply(name(n), name(n)))
    deeper = name(f)
    for _ in range(rng.choice([0, 1, 1, 2, 3])):
        operand = operation(rng.randrange(10), ONE, deeper)
        deeper = rng.choice([operand, operand, choose(deeper, NOTHING, NOTHING), let(n, deeper, NOTHING)])
    return rng.choice([again, apply(itself, itself)] + 4 * [rec(f, deeper)])


def summed(rng, env, end):
    """(rec f -> fun n -> if <= n 0 then END else + n (f (- n 1))) ..: the sum, the product or the like of a range."""
    f, n = some_names(rng, 2)
    more = operation(rng.choice([PLUS, PLUS, MINUS, TIMES]), *rng.sample([name(n), apply(name(f), less_one(n))], 2))
    return apply(rec(f, fun(n, choose(is_done(n), end({**without(env, f), n: INT}), more))), turns(rng))


def used(rng, env, end):
    """END as an argument, as a condition or as a bound expression."""
    x = some_name(rng)
    other = typed(rng, INT, env, 3)
    return rng.choice([lambda: operation(rng.randrange(3), end(env), other), lambda: operation(rng.randrange(3), other, end(env)),
                       lambda: let(x, end(env), name(x)), lambda: apply(fun(x, name(x)), end(env)),
                       lambda: choose(operation(rng.randrange(5, 10), end(env), other), other, ONE)])()


FIRST = [summed, summed, used] + WAYS
# How many of a hundred, the ways to it, and the end.
ENDS = [
    (30, FIRST, one_of(INT, 4)), (10, WAYS, one_of(BOOL, 5)), (8, WAYS, one_of(UNIT, 3)), (10, WAYS, a_function),
    (8, FIRST, a_division_by_zero), (8, FIRST, an_overflow), (12, FIRST, something_stuck), (5, FIRST, something_endless),
    (9, FIRST + 6 * [by_itself], one_of(INT, 4)),
]


def running(rng, most=3):
    """A closed expression, with a type or without, that goes up to so many ways until an end."""
    _, ways, end = rng.choices(ENDS, [share for share, _, _ in ENDS])[0]
    return after(rng, {}, lambda env: end(rng, env), ways, rng.randrange(1, most + 1))


# ---- Formulas whose run needs a given number of bindings, or of frames at once. The turns of one function take most of them, and what is
# left over is around its call and around the end. An end is closed here, and what it needs itself comes on top.

def within_bindings(rng, count, names, expression):
    """The expression after so many bindings of these names, which it does not use: by let, by a call or by rec."""
    for _ in range(count):
        x, value = rng.choice(names), some_constant(rng)
        expression = rng.choice([let(x, value, expression), apply(fun(x, expression), value), rec(x, expression)])
    return expression


def after_bindings(rng, count, end):
    """let x = .. in (rec f -> fun n -> let x = .. in if <= n 0 then let x = .. in END else f (- n 1)) ..: so many bindings, then END."""
    f, n, *others = some_names(rng, 4)
    each = rng.randrange(10, 40)
    times, left = divmod(count, each)
    before = rng.randrange(left + 1)
    body = choose(is_done(n), within_bindings(rng, left - before, others, end), apply(name(f), less_one(n)))
    # A turn binds f and n as well.
    function = rec(f, fun(n, within_bindings(rng, each - 2, others, body)))
    return within_bindings(rng, before, others, apply(function, integer(times - 1)))


def within_frames(rng, count, expression):
    """The integer expression, and around it what keeps so many frames while it is evaluated and makes an integer of it."""
    while count > 0:
        kept = min(count, rng.choice([1, 1, 1, 1, 2, 3]))
        x, number, operator = some_name(rng), integer(rng.randrange(-3, 10)), rng.choice([PLUS, MINUS, TIMES])
        if kept == 3:
            expression = choose(operation(rng.randrange(5, 10), expression, number), number, ONE)
        elif kept == 2:
            expression = operation(operator, expression, number)
        else:
            bound, called = let(x, expression, name(x)), apply(fun(x, name(x)), expression)
            expression = rng.choice([bound, bound, called, operation(operator, number, expression)])
        count -= kept
    return expression


def after_frames(rng, count, end):
    """let x = + .. ((rec f -> fun n -> if <= n 0 then + .. (let x = END in ..) else + .. (f (- n 1))) ..) in ..: so many frames are kept
    while END is evaluated, and no more anywhere else."""
    f, n, x = some_names(rng, 3)
    each = rng.randrange(10, 40)
    # Besides the two lets, three frames at the end are as many as the test of n takes.
    times, left = divmod(count - 5, each)
    before = rng.randrange(left + 1)
    last = within_frames(rng, 3 + left - before, let(x, end, rng.choice([name(x), some_integer(rng)])))
    body = choose(is_done(n), last, within_frames(rng, each, apply(name(f), less_one(n))))
    call = apply(rec(f, fun(n, body)), integer(times))
    return let(x, within_frames(rng, before, call), rng.choice([name(x), some_constant(rng)]))
