"""The table of labels of public clauses."""
from checks import labels

from .fixture import InRepository

PAGE = "# Style\n\n## Names\n\n| a | `outside` |\n\n## Labels of clauses\n\n| A clause says | labels |\n|---|---|\n"


class Labels(InRepository):
    def found(self, rows):
        return self.said(labels.wrong_labels(self.repository({"docs/STYLE.md": f"{PAGE}{rows}\n## Comments\n"})))

    def test_the_table_has_each(self):
        self.assertEqual(self.found("| what is found | `found` |\n"), "")

    def test_one_that_the_table_lacks(self):
        self.assertIn("the table of labels lacks found (low::has)", self.found(""))

    def test_one_that_no_clause_has(self):
        self.assertIn("no public clause has the label gone", self.found("| what is found | `found`, `gone` |\n"))
