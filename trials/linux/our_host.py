"""The eight orders of kernel_driver.py by pmhost, on the same part and under the same faults: our_host BUS."""
from faults import Run
from guest_bus import Bench
from kernel_driver import KINDS


def main(words):
    bench, has_fault = Bench(int(words[0])), False
    for passes in (1, 3):
        transfers, counts, total, done = Run(bench, [], passes, "ltc2972").count, [], 0, 0
        for kind in KINDS:
            runs = [Run(bench, ["ok"] * place + [kind], passes, "ltc2972") for place in range(transfers)]
            counts.append(sum(bool(list(run.wrong_outputs())) for run in runs))
            total, done = total + len(runs), done + sum(run.is_done() for run in runs)
            has_fault = has_fault or any(list(run.wrong_outputs()) + list(run.false_statements()) for run in runs)
        wrong = " ".join(f"{count:>4}" for count in counts)
        print(f"pmhost, {passes} pass{'es' * (passes > 1)}|always|{transfers}|{wrong}|{sum(counts)} of {total}|-|-", flush=True)
    return int(has_fault)
