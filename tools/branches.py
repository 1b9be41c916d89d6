"""Which branches above the crates look at how a job or a course ended, and which of these begin a job or stand in a loop."""
import ast
import re

# What tells how a job, a survey or a plan ended.
ENDS = re.compile(r"STILL_DIFFERS|DIFFERS|\bP4\b|NotKnown|SURVEY_(?:DONE|SPENT|STUCK)|PLAN_DONE|Surveyed::|[\"'](?:differs|spent|stuck|begun)[\"']"
                  r"|differed|has_ordered|pm_host_(?:plan|next|survey)\b")
# The calls that begin a job, an order, a check or a survey.
BEGINS = re.compile(r"\b(?:order|order_volts|order_voltage|set_voltage|set_microvolts|check|learn|survey|run|run_course|run_job|carry_out"
                    r"|pm_host_(?:run\w*|order\w*|check|learn)|pm_course_(?:frame|survey|words|microvolts|power)|pm_carry_out)\(")
# A line of C, Rust or JavaScript that decides.
DECIDES = re.compile(r"\b(?:if|while|match|switch|case)\b|=>|\?(?=[ \n])")
LOOP = re.compile(r"(?:for|while|loop|do)\b")


def python_branches(text):
    """(line, condition, whether it stands in a loop or its branch begins a job) of each condition that looks at an end."""
    tree = ast.parse(text)
    inner = {id(node) for loop in ast.walk(tree) if isinstance(loop, (ast.For, ast.While)) for node in ast.walk(loop)}
    for node in ast.walk(tree):
        if isinstance(node, (ast.If, ast.While, ast.IfExp)):
            condition = ast.get_source_segment(text, node.test)
            if ENDS.search(condition):
                body = node.body if isinstance(node.body, list) else [node.body]
                branch = "\n".join(ast.get_source_segment(text, each) for each in body)
                goes_round = id(node) in inner and not isinstance(node, ast.IfExp)
                yield node.lineno, condition, goes_round or bool(BEGINS.search(branch))


def other_branches(text):
    """The same of C, Rust and JavaScript, whose lines are set in as their loops are."""
    lines, outer = text.splitlines(), []
    for place, line in enumerate(lines):
        if not line.strip() or re.match(r"\s*(?:/[/*]|\*)", line):
            continue
        depth = len(line) - len(line.lstrip())
        outer = [(at, is_loop) for at, is_loop in outer if at < depth]
        if ENDS.search(line) and DECIDES.search(line):
            branch = [line.partition(")")[2]]
            for later in lines[place + 1:]:
                if later.strip() and len(later) - len(later.lstrip()) <= depth:
                    break
                branch.append(later)
            yield place + 1, line.strip(), any(is_loop for _, is_loop in outer) or bool(BEGINS.search("\n".join(branch)))
        outer.append((depth, bool(LOOP.match(line.strip()))))


def branches(paths, read):
    """(path, line, condition, whether it stands in a loop or its branch begins a job) of each condition that looks at an end."""
    for path in paths:
        for line, condition, begins in (python_branches if path.endswith(".py") else other_branches)(read(path)):
            yield path, line, condition, begins
