"""What tools/tables.py reads and writes. `texts` has what the SQL says, `rows` what rows the tables
hold and what is asked of them; `forms`, `kept`, `laws` and `writes` are the files that follow."""
