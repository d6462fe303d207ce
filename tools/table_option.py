"""A borehole table on a command line: as the third file, or behind --table as the check's own command has it."""


def add_table(parser):
    parser.add_argument("table", metavar="TABLE", nargs="?", help="the borehole table, where there is one")
    parser.add_argument("--table", metavar="TABLE", dest="table_option", help="the same")


def parsed(parser):
    """The arguments, options standing anywhere, with the table in `table`."""
    given = parser.parse_intermixed_args()
    if given.table_option is not None:
        if given.table is not None:
            parser.error(f"two tables: {given.table} and {given.table_option}")
        given.table = given.table_option
    return given
