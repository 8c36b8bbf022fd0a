"""The command line of cfetbl: `python3 -m cfetbl WORD..` does what `cfetbl WORD..` does. What its words do stands in tblkit."""
