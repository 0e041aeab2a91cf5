# The long mixed history of messages/many, with what processors say that aren't there.
from pathlib import Path
from runpy import run_path

run_path(str(Path(__file__).parent.parent / "messages" / "many.make"), {"WITH_ABSENT": True})
