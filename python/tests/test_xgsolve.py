"""Tests of xgsolve with the built program, which the variable XG_SOLVE names. XG_CHECKOUT names the repository."""
import json
import os
import pathlib
import sys
import tempfile
import types
import unittest
from fractions import Fraction

import xgsolve
from xgsolve import _lib, _program, faults

ROOT = pathlib.Path(os.environ.get("XG_CHECKOUT") or pathlib.Path(__file__).resolve().parents[2])
GAMES = ROOT / "games"
KUHN = GAMES / "kuhn_poker.efg"
VALUE = Fraction(-1, 18)
HALF = {1: Fraction(1, 2), 2: Fraction(1, 2)}
# A game whose names can't be told apart or are none, with markup in them.
ODD = b"""EFG 2 R "a <b> & c" { "<One>" "Two" }
p "" 1 5 "twice" { "x" "x" } 0
p "" 1 7 "twice" { "<i>" "y" } 0
t "" 1 { 1, 2 }
t "" 2 { 2, 1 }
p "" 2 9 "12" { "1" "2" } 0
t "" 1
t "" 2
"""


def probabilities(result):
    """The plans as plain dictionaries."""
    return {k: {set_: dict(actions) for set_, actions in plan.items()} for k, plan in result.plans.items()}


class Games(unittest.TestCase):
    def test_reads_names_and_numbers(self):
        game = xgsolve.read_game(KUHN)
        self.assertEqual((game.nodes, game.leaves, game.sum), (58, 30, 0))
        self.assertEqual(game.players, ("First", "Second"))
        self.assertEqual([it.number for it in game.sets(1)], [1, 4, 2, 5, 3, 6])
        self.assertIs(xgsolve.read_game(game), game)
        self.assertEqual(xgsolve.read_game(str(KUHN)).data, xgsolve.read_game(KUHN.read_bytes()).data)
        self.assertEqual(xgsolve.read_game(GAMES / "networks.efg").sum, 100)

    def test_made_games(self):
        self.assertEqual(xgsolve.make_game("leduc").nodes, 9457)
        self.assertEqual(xgsolve.make_game("goofspiel", 3).leaves, 36)
        for name, size in (("chess", None), ("leduc", 1), ("leduc", 14)):
            with self.assertRaises(xgsolve.WrongCall):
                xgsolve.make_game(name, size)

    def test_faults_have_their_line_and_words(self):
        for data, number, line in (
            (b"", 3, "refused 3 UnexpectedEnd"),
            (b"NFG 1", 2, "refused 2 Syntax at 0"),
            (KUHN.read_bytes().replace(b"1/3", b"0.333", 1), 16, "refused 16 ChanceSum node 1"),
            (KUHN.read_bytes() + b"t", 4, f"refused 4 TrailingText at {KUHN.stat().st_size}"),
        ):
            with self.assertRaises(xgsolve.Refused) as caught:
                xgsolve.read_game(data)
            self.assertEqual((caught.exception.number, caught.exception.line), (number, line))
            self.assertIn(line, str(caught.exception))
            self.assertGreater(len(caught.exception.words), 30)
            with self.assertRaises(xgsolve.Refused) as by_program:
                _program.call(["info", "game.efg"], {"game.efg": data})
            self.assertEqual(str(by_program.exception), str(caught.exception))
        self.assertEqual(set(faults.WORDS), set(range(1, 34)) - {20})

    @unittest.skipUnless(_lib.load_if_there("game_words"), "tools/explain isn't there")
    def test_words_of_explain(self):
        with self.assertRaises(xgsolve.Refused) as caught:
            xgsolve.read_game(KUHN.read_bytes().replace(b"1/3", b"0.333", 1))
        told = str(caught.exception)
        self.assertTrue(told.startswith("line 4, column 34: "), told)
        self.assertIn("tools/exact_chances", told)
        result = xgsolve.solve(KUHN, rounds=10)
        lied = xgsolve.Result(result.game, result.text.replace(b"unit 6", b"unit 7"))
        with self.assertRaises(xgsolve.Refused) as caught:
            lied.check()
        self.assertTrue(str(caught.exception).startswith("line 5, column 1: "), str(caught.exception))
        with self.assertRaises(xgsolve.WrongCall) as caught:
            _program.call(["solve", "--round=3"], {})
        self.assertIn("did you mean --rounds?", str(caught.exception))

    def test_a_missing_file(self):
        with self.assertRaises(FileNotFoundError):
            xgsolve.read_game(GAMES / "none.efg")


class Rounds(unittest.TestCase):
    def test_solve_is_the_program_s_text(self):
        result = xgsolve.solve(KUHN, rounds=100, every=10)
        text = _program.call(["solve", "game.efg", "--rounds=100", "--every=10"], {"game.efg": KUHN.read_bytes()})
        self.assertEqual(result.text, text)
        self.assertTrue(result.is_certificate)
        self.assertLess(result.low, VALUE)
        self.assertGreater(result.high, VALUE)
        self.assertEqual(result.width, result.high - result.low)
        self.assertEqual(result.second, (-result.high, -result.low))
        self.assertIn(f"\nbracket {result.low} {result.high}\n".encode(), text)
        self.assertEqual([it.round for it in result.trace], list(range(10, 101, 10)))
        self.assertEqual(result.trace[-1][1:], (result.low, result.high))
        checked = result.check()
        self.assertEqual((checked.low, checked.high, checked.certificate), (result.low, result.high, text))

    def test_cfr_plus_becomes_a_certificate(self):
        result = xgsolve.solve(KUHN, rounds=150, every=10, method="cfr+", scale=1000, workers=2)
        self.assertTrue(result.text.startswith(b"XGPLUS 1\n"))
        self.assertFalse(result.is_certificate)
        checked = result.check()
        self.assertEqual((checked.low, checked.high), (result.low, result.high))
        self.assertEqual(checked.notes, ("nothing was rounded",))
        self.assertTrue(checked.certificate.startswith(b"XGCERT 2\n"))
        again = xgsolve.exploitability(KUHN, result)
        self.assertEqual((again.low, again.high), (result.low, result.high))

    def test_a_text_that_isnt_true_is_refused(self):
        result = xgsolve.solve(KUHN, rounds=10)
        first = f"bracket {result.low} ".encode()
        lied = xgsolve.Result(result.game, result.text.replace(first, b"bracket 0 "))
        self.assertEqual(lied.low, 0)
        with self.assertRaises(xgsolve.Refused) as caught:
            lied.check()
        self.assertEqual(caught.exception.line, "refused 31 TotalDiffers lower")
        plus = xgsolve.solve(KUHN, rounds=10, method="cfr+")
        lied = xgsolve.Result(plus.game, plus.text.replace(f"bracket {plus.low} ".encode(), b"bracket 0 "))
        self.assertIn(f"the text says LOW 0, and its plans have {plus.low}", lied.check().notes)
        self.assertEqual(lied.check().low, plus.low)

    def test_a_text_of_another_game(self):
        text = xgsolve.solve(KUHN, rounds=1).text
        for data in (text, text[:-4], b""):
            with self.assertRaises(xgsolve.Refused):
                xgsolve.Result(xgsolve.read_game(GAMES / "toll.efg"), data)

    def test_wrong_arguments(self):
        for options in (
            {"rounds": 0}, {"rounds": 65_537}, {"rounds": 1.5}, {"rounds": True}, {"rounds": "9"}, {"every": 0},
            {"scale": 1_048_577}, {"workers": 65}, {"method": "mccfr"}, {"method": "cfr+", "rounds": 2_049},
            {"method": "cfr+", "scale": 16_385},
        ):  # fmt: skip
            with self.subTest(options), self.assertRaises(xgsolve.WrongCall):
                xgsolve.solve(KUHN, **options)
        with self.assertRaises(xgsolve.WrongCall):
            _program.call(["solve"], {})
        with self.assertRaises(xgsolve.ProgramFailed) as caught:
            _program.call(["info", "none.efg"], {})
        self.assertEqual((caught.exception.status, caught.exception.said), (3, "read fault"))

    def test_finds_the_program(self):
        with tempfile.TemporaryDirectory() as folder:
            program = pathlib.Path(folder) / "xg_solve"
            program.write_text("#!/bin/sh\necho accepted 1 2\n")
            program.chmod(0o755)
            kept = dict(os.environ)
            try:
                self.assertEqual(_program.find(program), str(program))
                os.environ["XG_SOLVE"] = str(program)
                self.assertEqual(_program.find(), str(program))
                del os.environ["XG_SOLVE"]
                os.environ["PATH"] = folder
                launcher = str(ROOT / "bin" / "xg_solve") if _lib.checkout() else str(program)
                self.assertEqual(_program.find(), launcher)
                os.environ["PATH"] = ""
                if not _lib.checkout():
                    with self.assertRaises(xgsolve.NoProgram):
                        _program.find()
                os.environ["XG_SOLVE"] = "/no/program"
                with self.assertRaises(xgsolve.NoProgram):
                    _program.find()
            finally:
                os.environ.clear()
                os.environ.update(kept)
            with self.assertRaises(xgsolve.Refused):
                xgsolve.exploitability(KUHN, xgsolve.solve(KUHN, rounds=1), program=program)


class Plans(unittest.TestCase):
    def test_plans_by_names_and_numbers(self):
        result = xgsolve.solve(KUHN, rounds=20)
        plan = result.plans[1]
        self.assertEqual(list(plan)[0], "holds the Jack")
        self.assertEqual(len(plan), 6)
        self.assertEqual(plan["holds the Jack"]["bet"], plan[1][2])
        self.assertEqual(sum(plan["holds the Jack"].values()), 1)
        self.assertIsInstance(plan[1][1], Fraction)
        for keys in (("none",), (9,), (1, 3), (1, "none")):
            with self.subTest(keys), self.assertRaises(KeyError):
                found = plan
                for key in keys:
                    found = found[key]

    def test_odd_names(self):
        profile = {1: {5: {1: 1, 2: 0}, 7: HALF}, 2: {9: {"1": "1/4", "2": 0.75}}}
        result = xgsolve.exploitability(ODD, profile)
        self.assertEqual(list(result.plans[1]), ["5", "7"])
        self.assertEqual(dict(result.plans[1]["5"]), {"1": 1, "2": 0})
        self.assertEqual(dict(result.plans[1][7]), {"<i>": Fraction(1, 2), "y": Fraction(1, 2)})
        self.assertEqual(dict(result.plans[2]["9"]), {"1": Fraction(1, 4), "2": Fraction(3, 4)})
        page = result._repr_html_()
        self.assertIn("a &lt;b&gt; &amp; c", page)
        self.assertIn("&lt;One&gt;", page)
        self.assertNotIn("<i>", page)
        self.assertIn("0.250000", page)

    def test_sets_never_reached(self):
        result = xgsolve.exploitability(ODD, {1: {5: {2: 1}}, 2: {9: HALF}})
        self.assertEqual(dict(result.plans[1][7]), {"<i>": None, "y": None})
        rows = [it for it in result.to_rows() if it["set"] == 7]
        self.assertEqual([(it["probability"], it["decimal"], it["before"]) for it in rows], [(None, None, 0)] * 2)
        again = xgsolve.exploitability(ODD, result.to_rows())
        self.assertEqual(again.text, result.text)
        self.assertIn("never reached", result._repr_html_())

    def test_rows_and_table(self):
        result = xgsolve.solve(KUHN, rounds=20)
        rows = result.to_rows()
        self.assertEqual(len(rows), 24)
        wanted = {"player": 1, "player_name": "First", "set": 1, "set_name": "holds the Jack", "action": 2}
        wanted |= {"action_name": "bet", "probability": result.plans[1][1][2]}
        self.assertEqual({name: rows[1][name] for name in wanted}, wanted)
        self.assertEqual(Fraction(rows[1]["weight"], rows[1]["before"]), rows[1]["probability"])
        self.assertEqual(rows[1]["decimal"], float(rows[1]["probability"]))
        self.assertTrue(result.to_csv().startswith("player,set,action,probability\n1,holds the Jack,check,"))
        told = json.loads(json.dumps(result.to_dict()))
        self.assertEqual(Fraction(told["bracket"]["low"]["fraction"]), result.low)

    def test_shown_bounds_are_rounded_outward(self):
        result = xgsolve.exploitability(KUHN, GAMES / "kuhn_a_little_wrong.csv")
        for digits in (1, 3, 9):
            for it in (result, result.check()):
                low, high = it.rounded(digits)
                self.assertLessEqual(Fraction(low), result.low)
                self.assertGreaterEqual(Fraction(high), result.high)
        self.assertIn("-0.0972222 to -0.0555554", repr(result))
        self.assertIn("-0.0972222 to -0.0555554", result._repr_html_())

    def test_saves_its_text(self):
        with tempfile.TemporaryDirectory() as folder:
            result = xgsolve.solve(KUHN, rounds=1)
            result.save(pathlib.Path(folder) / "text")
            self.assertEqual((pathlib.Path(folder) / "text").read_bytes(), result.text)


class Strategies(unittest.TestCase):
    def test_an_equilibrium(self):
        result = xgsolve.exploitability(KUHN, GAMES / "kuhn_equilibrium.csv")
        self.assertEqual((result.low, result.high, result.width), (VALUE, VALUE, 0))
        self.assertEqual(result.notes, ("nothing was rounded",))

    def test_all_forms_of_a_strategy(self):
        solved = xgsolve.solve(KUHN, rounds=30)
        rows = solved.to_rows()
        for profile in (
            solved, solved.plans, probabilities(solved), rows, solved.to_csv().encode(), iter(rows),
            [(it["player"], it["set_name"], it["action_name"], it["probability"]) for it in rows],
        ):  # fmt: skip
            found = xgsolve.exploitability(KUHN, profile)
            self.assertEqual((found.low, found.high, found.notes), (solved.low, solved.high, ("nothing was rounded",)))

    def test_floats_are_the_decimals_that_are_printed(self):
        equal = {k: {it.number: {1: 0.5, 2: 0.5} for it in xgsolve.read_game(KUHN).sets(k)} for k in (1, 2)}
        self.assertEqual(xgsolve.exploitability(KUHN, equal).width, Fraction(11, 12))
        equal[2][5] = {1: 2 / 3, 2: 1 / 3}
        found = xgsolve.exploitability(KUHN, equal)
        self.assertIn("0.6666666666666666 and 0.3333333333333333 add up to", found.notes[0])
        self.assertEqual(found.plans[2][5][1], Fraction(6666666666666666, 9999999999999999))

    def test_one_player_alone(self):
        first = {1: xgsolve.exploitability(KUHN, GAMES / "kuhn_equilibrium.csv").plans[1]}
        found = xgsolve.exploitability(KUHN, first, player=1)
        self.assertEqual(found.low, VALUE)
        self.assertIn("player 2's plan is a best response to the profile, of which LOW alone speaks", found.notes)
        with self.assertRaises(xgsolve.Refused):
            xgsolve.exploitability(KUHN, first)
        with self.assertRaises(xgsolve.WrongCall):
            xgsolve.exploitability(KUHN, first, player=3)

    def test_what_isnt_a_strategy(self):
        mappings = {1: {"none": {1: 1}}}, {1: {1: {1: 2}}}
        for profile in (b"", b"1,2", *mappings, [(1, 1, 1, "x")], [(1, 1, 1, float("nan"))]):
            with self.subTest(profile), self.assertRaises(xgsolve.Refused) as caught:
                xgsolve.exploitability(KUHN, profile)
            self.assertIsNone(caught.exception.number)
        with self.assertRaises(xgsolve.WrongCall):
            xgsolve.exploitability(KUHN, [(1, 1, 1)])

    def test_rounding_is_said(self):
        third = "0.3333333333333333333333"
        first = {5: {1: third, 2: "0.6666666666666666666667"}, 7: {1: "1/1048583", 2: "1048582/1048583"}}
        found = xgsolve.exploitability(ODD, {1: first, 2: {9: HALF}})
        self.assertIn("rounding to whole numbers changed LOW by at most", found.notes[-1])


class State:
    """One move of a game as OpenSpiel has states."""

    def __init__(self, history=()):
        self.history = history

    def is_terminal(self):
        return len(self.history) == 2

    def is_chance_node(self):
        return False

    def current_player(self):
        return len(self.history)

    def information_state_string(self):
        return f"player {len(self.history)}"

    def legal_actions(self):
        return [3, 8]

    def action_to_string(self, action):
        return {3: "heads", 8: "tails"}[action]

    def child(self, action):
        return State((*self.history, action))

    def returns(self):
        one, two = self.history
        return [1.0, -1.0] if one == two else [-1.0, 1.0]


class Elsewhere(unittest.TestCase):
    def test_games_of_openspiel(self):
        game = types.SimpleNamespace(new_initial_state=State)
        read, profile = xgsolve.from_openspiel(game)
        self.assertEqual((read.nodes, xgsolve.exploitability(read, profile).width), (7, 0))
        policy = types.SimpleNamespace(action_probabilities=lambda state: {3: 0.75, 8: 0.25})
        read, profile = xgsolve.from_openspiel(game, policy)
        found = xgsolve.exploitability(read, profile)
        self.assertEqual((found.low, found.high), (Fraction(-1, 2), Fraction(1, 2)))


class Modules(unittest.TestCase):
    def test_own_modules_stay(self):
        own = types.ModuleType("plans")
        sys.modules["plans"], path = own, list(sys.path)
        try:
            _lib.load("certifying", "report_page")
            self.assertIs(sys.modules["plans"], own)
        finally:
            del sys.modules["plans"]
        self.assertEqual(sys.path, path)
        self.assertNotIn("certifying", sys.modules)
        self.assertIs(_lib.load("certifying")[0], _lib.load("certifying")[0])


if __name__ == "__main__":
    unittest.main()
