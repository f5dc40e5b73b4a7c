"""Texts for `tools/text_runs`: files with a piece changed, and the line that is put of each.

The places of faults are counted in bytes by hand, or by the second judge (`judge/evjudge.py`)."""

ONE_STATION_CERTIFICATE = """\
evroute certificate 1
bound 43
root exact 1 1
share 1 0 v2+1 1 0
sections 1
section 1 0 5
prices 43
label 0 0 - 10:0
label 1 1 1 4:20
label 0 2 - 7:16 8:17 10:29
label 1 2 1 2:26 8:32 10:44
label 1 1 1 5:22 6:23 8:35
leaf 0
"""

# Of an instance with a reserve of 1.
RESERVE_CERTIFICATE = """\
evroute certificate 2
levels 1 0
bound 46
root exact 1 1
share 1 0 1 v2+4 0
sections 1
section 1 0 5
prices 46
label 0 0 - 10:0
label 1 1 1 4:20
label 0 2 - 7:16 8:17 10:29
label 1 2 1 2:26 8:32 10:44
label 1 1 1 5:22 6:23 8:35
leaf 0
"""

# Of two customers: two sections under a split, with a wide root.
SPLIT_CERTIFICATE = """\
evroute certificate 1
bound none
root wide 2
column 0 1
column 0
basis h2 0
sections 2
section 0 0 0
prices 0 1
section 3 2 1
prices -5 0
pair 0 2
pair 1 0
label 2 2 1,2 3:4
split 1 2
leaf 0
leaf 1
"""

# Of the route 0,1,0 with one station.
ONE_STATION_PROOF = """\
evroute proof 1
route 0 v2+1 1 0
labels 5
label 0 0 10:0
label 1 1 4:20
label 0 2 7:16 8:17 10:29
label 1 2 2:26 8:32 10:44
label 1 1 5:22 6:23 8:35
"""

ONE_STATION_NEAR = """\
evroute near 1
bound 43
section 1 5
prices 43
near 1
label 0 - 0 0 10:0
label 1 1 1 43 4:20
label 2 - 0 0 7:16 8:17 10:29
label 2 1 1 43 2:26 8:32 10:44
label 1 1 1 43 5:22 6:23 8:35
tight 0 v2+1 1 0
"""

# Three customers, of whom two on one route take 11 and one alone 8; within 11.
COUNTED_TREE = """\
evroute near tree 1
bound 19
entries 1 1,2,3
leaf
section 0 10
prices 1 1 1
near 1
near 2
near 3
entry -2
label 0 - 0 10:0
label 1 1 -1 9:4
label 2 2 -1 9:4
label 3 3 -1 9:4
label 1 1 0 8:7
label 2 2 0 8:7
label 3 3 0 8:7
label 1 1 1 7:10
label 2 2 1 7:10
label 3 3 1 7:10
leaf
section 1 4
prices 3 3 3
near 1
near 2
near 3
entry 5
label 0 - 0 10:0
label 1 1 8 9:4
label 2 2 8 9:4
label 3 3 8 9:4
"""

# The least route of the instance with one station, with a label for each last at the station.
STATION_TREE = """\
evroute near tree 1
bound 43
leaf
section 1 5
prices 43
near 1
label 2 * 1 43 2:26 8:32 10:44
label 1 1 43 5:22 6:23 8:35
label 1 1 43 4:20
label 2 * - 0 7:16 8:17 10:29
label 0 - 0 10:0
"""

# For two kinds, of which the second is nearer to the first customer; within 12.
TWO_KINDS_PROOF = """\
evroute mixed 1
kinds 2
bound 14
root exact 1 2
share 1 1 0 1 0
share 1 0 0 2 0
section 1
prices 6 8
kind 0 3
label 0 0 - 10:0
label 1 1 1 9:4
label 2 2 1,2 8:9
kind 1 2
label 0 0 - 10:0
label 1 1 1 9:3
"""

# The certificate of one station with a piece changed, and the rule of its text that is broken.
CERTIFICATE = [
    ("certificate 1", "certificate 9", "3"),
    ("certificate 1", "certificate 2", "3"),
    ("certificate 1", "certificate 01", "1 at 0"),
    ("bound 43", "bound 79228162514264337593543950337", "2 at 28"),
    ("bound 43", "bound nona", "1 at 28"),
    ("exact 1 1", "exact 0 1", "2 at 42"),
    ("share 1 0 v2+1", "share 1 0 v2+0", "1 at 59"),
    ("sections 1", "sections 18446744073709551616", "2 at 74"),
    ("sections 1", "sections 0", "2 at 74"),
    ("prices 43", "prices", "1 at 90"),
    ("prices 43", "prices -0", "2 at 97"),
    ("prices 43", "prices 43 1", "1 at 99"),
    ("label 1 1 1 4", "label 1 3 1 4", "2 at 125"),
    ("label 1 1 1 4", "label 2 1 1 4", "2 at 123"),
    ("label 1 1 1 4", "label 1 1 1,1 4", "2 at 129"),
    ("7:16 8:17", "7:16 7:17", "2 at 151"),
    ("7:16 8:17 10:29", "7:16 8:17 10:28", "2 at 159"),
    ("leaf 0", "leaf 1", "2 at 222"),
]

# The same of a certificate with least levels.
LEVELS = [
    ("certificate 2", "certificate 1", "3"),
    ("levels 1", "levels 2", "2 at 29"),
]

# The same of a certificate with a wide root and a split.
SPLIT = [
    ("basis h2 0", "basis h2 h2", "2 at 75"),
    ("basis h2 0", "basis h2 2", "2 at 74"),
    ("basis h2 0", "basis h2", "1 at 73"),
    ("pair 1 0", "pair 0 1", "2 at 154"),
    ("pair 1 0", "pair 1 1", "2 at 154"),
    ("split 1 2", "split 1 1", "2 at 182"),
]

# The same of a proof of a route.
ROUTE_PROOF = [
    ("proof 1", "proof 9", "3"),
    ("proof 1", "proof 01", "1 at 0"),
    ("route 0", "rout 0", "1 at 16"),
    ("v2+1", "v2+0", "1 at 27"),
    ("labels 5", "labels 18446744073709551616", "2 at 40"),
    ("labels 5", "labels 4", "1 at 124"),
    ("labels 5", "labels 6", "1 at 149"),
    ("label 1 1 4", "label 2 1 4", "2 at 63"),
    ("label 1 1 4", "label 1 3 4", "2 at 65"),
    ("label 1 1 4:20", "label 1 1", "1 at 66"),
    ("7:16 8:17", "7:16 7:17", "2 at 87"),
    ("8:17 10:29", "8:17 10:28", "2 at 95"),
    ("8:17 10:29", "8:17 11:29", "2 at 92"),
    ("6:23 8:35\n", "6:23 8:35\n\n", "1 at 149"),
]

# The same of a near proof.
NEAR_PROOF = [
    ("near 1\nbound", "near 2\nbound", "3"),
    ("near 1\nlabel", "near -\nlabel", "2 at 51"),
    ("section 1 5", "section 2 5", "2 at 32"),
    ("tight 0", "tigh 0", "1 at 183"),
]

# The same of trees, for three customers and for one and a station.
TREE_TEXT = [
    ("tree 1", "tree 2", "3"),
    ("tree 1", "tree one", "1 at 0"),
    ("bound 19", "bound 019", "1 at 26"),
    ("entries 1 1,2,3", "entries 0 1,2,3", "2 at 37"),
    ("entries 1 1,2,3", "entries 3 1,2,3", "2 at 37"),
    ("entries 1 1,2,3", "entries 4 1,2,3", "2 at 37"),
    ("entries 1 1,2,3", "entries 1 -", "2 at 39"),
    ("entries 1 1,2,3", "entries 1 1,3,2", "2 at 43"),
    ("entries 1 1,2,3", "split 1 1", "2 at 37"),
    ("entries 1 1,2,3", "split 1 4", "2 at 37"),
    ("leaf", "leaf 0", "1 at 45"),
    ("section 0 10", "section 0 9", "1 at 255"),
    ("prices 1 1 1", "prices 1 -0 1", "2 at 72"),
    ("near 1", "near 2", "2 at 81"),
    ("entry -2\n", "", "1 at 97"),
    ("label 1 1 -1 9:4", "label 1 1 1 -1 9:4", "1 at 135"),
    ("9:4", "11:4", "2 at 136"),
]
STATION_TREE_TEXT = [
    ("2 * 1", "2 1 1", "accepted"),
    ("2 * 1", "2 2 1", "refused certificate 2 at 71"),
    ("2 * 1", "2 1", "refused certificate 2 at 73"),
    ("1 1 43 5", "1 * 1 43 5", "refused certificate 1 at 102"),
    ("1 1 43 5", "1 1 44 5", "rejected tree 3 leaf 0 label 1"),
]

# The same of a proof for two kinds.
MIXED_PROOF = [
    ("mixed 1", "mixed 2", "3"),
    ("mixed 1", "mixed one", "1 at 0"),
    ("kinds 2", "kinds 1", "2 at 22"),
    ("bound 14", "bound 014", "1 at 30"),
    ("exact 1 2", "exact 0 2", "2 at 44"),
    ("share 1 1 0", "share 1 2 0", "2 at 56"),
    ("share 1 1 0 1 0", "share 1 1", "1 at 57"),
    ("section 1", "sections 1", "1 at 80"),
    ("prices 6 8", "prices 6", "1 at 98"),
    ("kind 0 3", "kind 1 3", "2 at 106"),
    ("1,2 8:9", "2,1 8:9", "2 at 155"),
    ("kind 1 2", "kind 0 2", "2 at 166"),
    ("9:3\n", "9:3\n\n", "1 at 203"),
]

# The text of a plan file, and the rule that it breaks.
PLANS = [
    ("evroute plan 1", "4 at 0"),
    ("evroute plan 1\nnon", "4 at 15"),
    ("evroute plan 1\nnox", "3 at 15"),
    ("evroute plan 1\nnone\n\n", "3 at 20"),
    ("evroute plan 1\nroutes 1000001\n", "2 at 22"),
    ("evroute plan 1\nroutes 1\nroute 0+0\n", "1 at 32"),
    ("evroute plan 1\nroutes 1\nroute 0 v2+1000000001\n", "2 at 35"),
    ("evroute plan 1\nroutes 1\nroute 0 ", "4 at 32"),
]

# The same of a plan for two kinds.
MIXED_PLANS = [
    ("evroute mixed plan 1", "4 at 0"),
    ("evroute mixed plan 1\nnon", "4 at 21"),
    ("evroute mixed plan 1\nnox", "3 at 21"),
    ("evroute mixed plan 1\nnone\n\n", "3 at 26"),
    ("evroute mixed plan 1\nroutes 1000001\n", "2 at 28"),
    ("evroute mixed plan 1\nroutes 1\nkind 2 route 0\n", "2 at 35"),
    ("evroute mixed plan 1\nroutes 1\nkind 01 route 0\n", "1 at 35"),
    ("evroute mixed plan 1\nroutes 1\nkind 1 rout", "4 at 36"),
    ("evroute mixed plan 1\nroutes 1\nkind 1 0\n", "3 at 36"),
    ("evroute mixed plan 1\nroutes 1\nkind 1 route 0+0\n", "1 at 45"),
    ("evroute mixed plan 1\nroutes 1\nkind 1 route 0\nkind 0 route 0\n", "3 at 45"),
]

# Keys that are put behind those of the depot alone, and the rule that the instance breaks, or the
# cost of its plan.
INSTANCES = [
    ('"note":1', "cost 0/1"),
    ('"t_max":7,"max_t":null', "cost 0/1"),
    ('"t_max":7,"max_t":5', "cost 0/1"),
    (
        '"other":{"t_max":-1},"css":[{"node_id":0,"type":7}],"breakpoints_by_type":[{"type":7'
        ',"time":[0,4,10],"charge":[0,8,10],"plug_time":1000000000}],"min_q":10,"home_q":10',
        "cost 0/2",
    ),
    ('"max_q":10.0,"css":7', "4 max_q"),
    ('"css":[{"node_id":0,"cs_type":null,"type":"a"}]', "4 css/0/type"),
    (
        '"breakpoints_by_type":[{"type":"a","time":[0],"charge":[0,1,2.5],"plug_time":1.5}]',
        "4 breakpoints_by_type/0/charge/2",
    ),
    (
        '"breakpoints_by_type":[{"type":"a","time":[0],"charge":[0],"plug_time":null}]',
        "4 breakpoints_by_type/0/plug_time",
    ),
    ('"energy_matrix":[[0],[0,-0]],"time_matrix":7', "4 energy_matrix/1/1"),
    ('"max_t":1.5,"min_q":null,"home_q":null', "4 max_t"),
    ('"max_q":1000000001,"min_q":null,"home_q":null', "4 min_q"),
    ('"home_q":"5"', "4 home_q"),
    ('"max_q":1000000001,"process_times":[1000000001]', "5 max_q"),
    (
        '"breakpoints_by_type":[{"type":"a","time":[],"charge":[1],"plug_time":1000000001}],"'
        "process_times\":[1000000001]",
        "5 breakpoints_by_type/0/plug_time",
    ),
    ('"time_matrix":[[0],[0,1000000001]],"min_q":1000000001', "5 time_matrix/1/1"),
    ('"home_q":1000000001,"min_q":11', "5 home_q"),
    (
        '"breakpoints_by_type":[{"type":"a","time":[0],"charge":[]}],"energy_matrix":[]',
        "6 breakpoints_by_type/0/charge",
    ),
    ('"css":[{"node_id":9,"type":"a"}],"time_matrix":[[0,0]]', "6 time_matrix/0"),
    ('"css":[{"node_id":0,"type":"b"},{"node_id":0,"type":"a"}]', "7 css/1/node_id"),
    (
        '"css":[{"node_id":0,"type":1}],"breakpoints_by_type":[{"type":"1","time":[],"charge":[]}]',
        "8 css/0/type",
    ),
    (
        '"breakpoints_by_type":[{"type":"a","time":[0,6,10],"charge":[0,2,10]}],"min_q":11',
        "9 breakpoints_by_type/0 concave 2",
    ),
    (
        '"max_q":999999999,"breakpoints_by_type":[{"type":"a","time":[0,1],"charge":[0,100000'
        '0000]},{"type":"b","time":[0,1],"charge":[0,999999999]}],"t_max":2000000000000000000',
        "10",
    ),
    ('"max_t":1000000000000000001,"min_q":11', "11 1000000000000000001"),
    ('"min_q":11,"home_q":11', "12 min_q"),
    ('"min_q":10,"home_q":11', "12 home_q"),
]

# A text, the digits of times and of energies, and the text that it becomes, or the line that is
# put. What is wanted was computed by another program, in fractions.
DECIMALS = [
    ('{"max_q":2.5}', 0, 0, '{"max_q":3}'),
    ('{"time":[1e-05]}', 3, 0, '{"time":[1]}'),
    ('{"max_q":-0.5}', 0, 0, "refused literal 2 at 9\n"),
    ('{"max_q":1}', 10, 0, "refused literal 4\n"),
    ('{"max_q":1}', 0, 10, "refused literal 4\n"),
    (
        '{"max_q":10.0,"css":[{"node_id":2,"cs_type":"fast"}],"breakpoints_by_type":[{"cs_typ'
        'e":"fast","time":[0,4,10],"charge":[0,8,10]}],"process_times":[0,0,0],"energy_matrix'
        '":[[0,6,3],[6,0,2],[5,2,0]],"time_matrix":[[0,10,8],[10,0,3],[8,3,0]]}',
        0,
        0,
        '{"max_q":10,"css":[{"node_id":2,"cs_type":"fast"}],"breakpoints_by_type":[{"cs_type"'
        ':"fast","time":[0,4,10],"charge":[0,8,10]}],"process_times":[0,0,0],"energy_matrix":'
        '[[0,6,3],[6,0,2],[5,2,0]],"time_matrix":[[0,10,8],[10,0,3],[8,3,0]]}',
    ),
    (
        '{"max_q":16000.0,"t_max":10.0,"css":[{"node_id":2,"cs_type":"normal"}],"breakpoints_'
        'by_type":[{"cs_type":"normal","time":[0.0,0.62,0.77,1.01],"charge":[0.0,13600.0,1520'
        '0.0,16000.0]}],"process_times":[0.0,0.5,0.0],"energy_matrix":[[0.0,9000.4,5000.0],[9'
        '000.4,0.0,4100.5],[5000.0,4100.5,0.0]],"time_matrix":[[0.0,1.8,1.0],[1.8,0.0,0.82],['
        "1.01,0.82,0.0]]}",
        2,
        0,
        '{"max_q":16000,"t_max":1000,"css":[{"node_id":2,"cs_type":"normal"}],"breakpoints_by'
        '_type":[{"cs_type":"normal","time":[0,62,77,101],"charge":[0,13600,15200,16000]}],"p'
        'rocess_times":[0,50,0],"energy_matrix":[[0,9001,5000],[9001,0,4101],[5000,4101,0]],"'
        "time_matrix\":[[0,180,100],[180,0,82],[101,82,0]]}",
    ),
    ("", 0, 0, ""),
    (" \t\r\n", 9, 9, " \t\r\n"),
    ("2.5", 3, 3, "2.5"),
    ("[2.5]", 3, 3, "[2.5]"),
    ('"time":[1.5]', 0, 0, '"time":[1.5]'),
    ('{"time":1.5}', 0, 0, '{"time":2}'),
    ('{"time":1.5}', 1, 0, '{"time":15}'),
    ('{"time":1.51}', 1, 0, '{"time":16}'),
    ('{"time":1.4}', 0, 0, '{"time":2}'),
    ('{"charge":0.0001}', 0, 3, '{"charge":1}'),
    ('{"charge":9000.4}', 0, 0, '{"charge":9001}'),
    ('{"time":{"x":1.5},"y":1.5}', 0, 0, '{"time":{"x":1.5},"y":1.5}'),
    (
        '{"time":{"x":1.5} , "z":[{"charge":1.5},1.5],"time":[[1.5],1.5]}',
        0,
        0,
        '{"time":{"x":1.5} , "z":[{"charge":2},1.5],"time":[[2],2]}',
    ),
    ('{"time":[{"y":0.5},0.5]}', 0, 0, '{"time":[{"y":0.5},1]}'),
    ('{"a":[0.5,{"time":0.5},0.5]}', 0, 0, '{"a":[0.5,{"time":1},0.5]}'),
    ('{"time" \n\t\r : 1.5}', 0, 0, '{"time" \n\t\r : 2}'),
    ('{"time",1.5:1.5}', 0, 0, '{"time",1.5:1.5}'),
    ('{"ti\\u006de":1.5}', 0, 0, '{"ti\\u006de":1.5}'),
    ('{"t\\"ime":1.5,"time":1.5}', 0, 0, '{"t\\"ime":1.5,"time":2}'),
    ('["time":1.5,"other":1.5]', 0, 0, '["time":2,"other":1.5]'),
    (
        '{"Time":1.5,"times":1.5,"tim":1.5,"time_matrix":1.5,"process_times":1.5,"t_max":1.5,'
        '"max_t":1.5,"plug_time":1.5,"energy_matrix":1.5,"max_q":1.5,"charge":1.5,"min_q":1.5'
        ',"home_q":1.5}',
        1,
        2,
        '{"Time":1.5,"times":1.5,"tim":1.5,"time_matrix":15,"process_times":15,"t_max":15,"ma'
        'x_t":15,"plug_time":15,"energy_matrix":150,"max_q":150,"charge":150,"min_q":150,"hom'
        "e_q\":150}",
    ),
    ('{"max_q":-0}', 0, 0, '{"max_q":0}'),
    ('{"max_q":-0.00e5}', 0, 0, '{"max_q":0}'),
    ('{"max_q":0e999999999}', 9, 9, '{"max_q":0}'),
    ('{"max_q":-0e-999999999}', 9, 9, '{"max_q":0}'),
    ('{"max_q":1e-999999999}', 9, 9, '{"max_q":1}'),
    ('{"max_q":1e999999999}', 0, 0, "refused literal 3 at 9\n"),
    ('{"max_q":1e99999999999999999999999999999999999999999}', 0, 0, "refused literal 3 at 9\n"),
    ('{"max_q":1e-99999999999999999999999999999999999999999}', 0, 0, '{"max_q":1}'),
    ('{"max_q":1e18}', 0, 0, '{"max_q":1000000000000000000}'),
    ('{"max_q":1000000000000000000}', 0, 0, '{"max_q":1000000000000000000}'),
    ('{"max_q":1000000000000000001}', 0, 0, "refused literal 3 at 9\n"),
    ('{"max_q":1000000000000000000.0000001}', 0, 0, "refused literal 3 at 9\n"),
    ('{"max_q":999999999999999999.1}', 0, 0, '{"max_q":1000000000000000000}'),
    ('{"max_q":1e9}', 0, 9, '{"max_q":1000000000000000000}'),
    ('{"max_q":1.0000000001e9}', 0, 9, "refused literal 3 at 9\n"),
    ('{"max_q":12E+1,"t_max":12E-1,"time":0.012e2}', 0, 0, '{"max_q":120,"t_max":2,"time":2}'),
    ('{"max_q":123.456e-1}', 0, 1, '{"max_q":124}'),
    ('{"max_q":123.456e-1}', 0, 5, '{"max_q":1234560}'),
    ('{"max_q":0.0000000000000000000000000000000012e33}', 0, 0, '{"max_q":2}'),
    ('{"max_q":12000000000000000000000000000000000e-33}', 0, 0, '{"max_q":12}'),
    ('{"max_q":01}', 0, 0, '{"max_q":01}'),
    ('{"max_q":0.5.5}', 0, 0, "refused literal 1 at 12\n"),
    ('{"max_q":1.}', 0, 0, "refused literal 1 at 10\n"),
    ('{"max_q":-}', 0, 0, "refused literal 1 at 9\n"),
    ('{"max_q":1e}', 0, 0, "refused literal 1 at 10\n"),
    ('{"max_q":1e+}', 0, 0, "refused literal 1 at 10\n"),
    ('{"max_q":.5}', 0, 0, "refused literal 1 at 9\n"),
    ('{"max_q":+5}', 0, 0, "refused literal 1 at 9\n"),
    ('{"max_q":-01.5}', 0, 0, '{"max_q":02}'),
    ('{"max_q":--1}', 0, 0, "refused literal 1 at 9\n"),
    ('{"x":-01.50e7}', 0, 0, '{"x":-01.50e7}'),
    ('{"a":true,"b":false,"c":null}', 0, 0, '{"a":true,"b":false,"c":null}'),
    ('truefalse null"x"1', 0, 0, 'truefalse null"x"1'),
    ('{"a":tru}', 0, 0, "refused literal 1 at 5\n"),
    ('{"a":nul', 0, 0, "refused literal 1 at 5\n"),
    ("True", 0, 0, "refused literal 1 at 0\n"),
    ("{", 0, 0, "refused literal 1 at 1\n"),
    ('{"a":[1,2}', 0, 0, "refused literal 1 at 9\n"),
    ("]", 0, 0, "refused literal 1 at 0\n"),
    ('{"a":[1,2]', 0, 0, "refused literal 1 at 10\n"),
    ("[[]", 0, 0, "refused literal 1 at 3\n"),
    ('{"a":1}}', 0, 0, "refused literal 1 at 7\n"),
    ("\"a", 0, 0, "refused literal 1 at 0\n"),
    ('["a\nb"]', 0, 0, "refused literal 1 at 1\n"),
    ('"\\\n"', 0, 0, '"\\\n"'),
    ('"a\\"', 0, 0, "refused literal 1 at 0\n"),
    ('"\\\\"', 0, 0, '"\\\\"'),
    ("\"\\", 0, 0, "refused literal 1 at 0\n"),
    ('{"max_q":-1,"x":', 0, 0, "refused literal 2 at 9\n"),
    ('x{"max_q":-1}', 0, 0, "refused literal 1 at 0\n"),
    ('{"max_q":1e19,"time":-1}', 0, 0, "refused literal 3 at 9\n"),
    ('{"time":[-1e-9,1e19]}', 0, 0, "refused literal 2 at 9\n"),
    ('{"x":-1.5}', 0, 0, '{"x":-1.5}'),
    ("//", 0, 0, "refused literal 1 at 0\n"),
    ('{"time":\x0b1}', 0, 0, "refused literal 1 at 8\n"),
    (
        '{"t_max":null,"max_t":[null,true,"2.5",2.5]}',
        1,
        0,
        '{"t_max":null,"max_t":[null,true,"2.5",25]}',
    ),
    ("::,,}", 0, 0, "refused literal 1 at 4\n"),
    ('{"time":1.5]', 0, 0, "refused literal 1 at 11\n"),
    ('[{"time":5e-1}]', 0, 0, '[{"time":1}]'),
    ('{"time":[1.5],"x":[1.5]}', 0, 0, '{"time":[2],"x":[1.5]}'),
]

# Certificates with a piece changed, and the first line that is put of what they show.
SHOWN = [
    ("leaf 0", "leaf 0", "accepted"),
    ("bound 43", "bound 40", "accepted"),
    (
        "root exact 1 1\n",
        "root exact 2 2\nshare 1 0 v2+1 1 0\n",
        "accepted",
    ),
    ("10:0", "10:1", "rejected certificate 1 section 0"),
    (
        "5\nprices 43\nlabel 0 0 - 10:0\nlabel 1 1 1 4:20\nlabel 0 2 - 7:16 8:17 10:29\n",
        "4\nprices 43\nlabel 0 0 - 10:0\nlabel 1 1 1 4:20\n",
        "rejected certificate 2 section 0 label 0 node 2",
    ),
    ("prices 43", "prices 44", "rejected certificate 3 section 0 label 4"),
    ("bound 43", "bound 44", "rejected certificate 5 leaf 0"),
    ("share 1 0 v2+1 1 0", "share 1 0 1 v2+3 0", "rejected certificate 6"),
    ("root exact 1 1", "root exact 2 1", "rejected certificate 6"),
    ("share 1 0 v2+1 1 0", "share 1 0 v2+1 1 v2+3 1 0", "rejected certificate 6"),
    (
        "root exact 1 1\nshare 1 0 v2+1 1 0",
        "root wide 1\ncolumn 0 v2+1 1 0\nbasis 0",
        "rejected certificate 6",
    ),
    ("root exact 1 1\nshare 1 0 v2+1 1 0", "root none", "rejected certificate 6"),
]

# Of two customers: a split whose leaves have sections, of which one forbids a pair.
LEAVES_CERTIFICATE = """\
evroute certificate 1
bound 0
root none
sections 2
section 1 0 3
prices 4 4
label 0 0 - 10:0
label 1 1 1 9:4
label 2 2 2 9:4
section 1 1 3
prices 0 0
pair 1 2
label 0 0 - 10:0
label 1 1 1 9:4
label 2 2 2 9:4
split 1 2
leaf 1
leaf 0
"""

LEAVES = [
    ("leaf 1", "leaf 1", "rejected certificate 6"),
    ("leaf 1\nleaf 0", "leaf 0\nleaf 1", "rejected certificate 4 leaf 1"),
    ("leaf 1\nleaf 0", "leaf 1\nleaf 1", "rejected certificate 4 leaf 1"),
    ("split 1 2\nleaf 1\nleaf 0", "leaf 1", "rejected certificate 4 leaf 0"),
    ("bound 0", "bound 1", "rejected certificate 5 leaf 0"),
    ("3\nprices 4 4\nlabel 0 0 - 10:0\n", "2\nprices 4 4\n", "rejected certificate 1 section 0"),
]

# Of a customer who can't be reached.
NOWHERE_CERTIFICATE = """\
evroute certificate 1
bound none
root none
sections 1
section 0 0 1
prices 1
label 0 0 - 10:0
leaf 0
"""

NOWHERE = [
    ("leaf 0", "leaf 0", "accepted"),
    ("prices 1", "prices 0", "rejected certificate 5 leaf 0"),
]

# Proofs of a route with a piece changed, and what is put of them.
ROUTE_SHOWN = [
    ("labels 5", "labels 5", "accepted\nleast 43/2"),
    ("v2+1", "v2+8", "rejected proof 1 walk 6 at 1"),
    ("route 0 v2+1 1 0", "route 0", "rejected proof 1 walk 1"),
    ("route 0 v2+1 1 0", "route 0 2+1 1 0", "rejected proof 2"),
    ("10:0", "9:0", "rejected proof 3"),
    ("label 1 1 5:22 6:23 8:35", "label 1 1 5:23 6:23 8:35", "rejected proof 4 label 2 node 1"),
    ("label 0 2 7:16 8:17", "label 0 2 7:17 8:17", "rejected proof 4 label 0 via 2"),
    ("5:22 6:23 8:35", "5:21 6:22 8:34", "rejected proof 5 label 4"),
]

# Near proofs with a piece changed, and what is put of them.
NEAR_SHOWN = [
    ("prices 43", "prices 43", "accepted\nbound 43/2"),
    ("bound 43", "bound 42", "rejected near 4"),
    ("0 0 10:0", "0 0 9:0", "rejected near 1"),
    ("label 1 1 1 43 4:20", "label 1 1 1 43 3:20", "rejected near 2 label 0 node 1"),
    ("label 1 1 1 43 5:22", "label 1 1 1 44 5:22", "rejected near 3 label 4"),
    ("v2+1", "v2+2", "rejected near 5 customer 1"),
]

# What a tree shows, or the first rule that it breaks.
TREE_SHOWN = [
    ("bound 19", "bound 19", "accepted\ncost 19/1\nbound 19/1\ngap 0/1\ngap 0.00 %"),
    ("bound 19", "bound 18", "accepted\ncost 19/1\nbound 18/1\ngap 1/1\ngap 5.56 %"),
    ("bound 19", "bound 20", "rejected tree 4 leaf 1"),
    ("bound 19", "bound none", "rejected tree 4 leaf 1"),
    ("entries 1", "entries 2", "rejected tree 4 leaf 0"),
    ("0 - 0 10:0", "0 - 0 9:0", "rejected tree 1 leaf 0"),
    ("label 2 2 8 9:4", "label 2 2 8 8:4", "rejected tree 2 leaf 1 label 0 node 2"),
    ("label 3 3 8 9:4", "label 3 3 9 9:4", "rejected tree 2 leaf 1 label 3 node 1"),
    ("prices 3 3 3", "prices 3 3 2", "rejected tree 4 leaf 1"),
]

# For two kinds within 12: each customer is served by the kind that is nearer.
NEAREST_PROOF = """\
evroute mixed 1
kinds 2
bound 14
root exact 1 2
share 1 1 0 1 0
share 1 0 0 2 0
section 1
prices 6 8
kind 0 5
label 0 0 - 10:0
label 1 1 1 9:4
label 2 2 2 9:4
label 2 2 1,2 8:9
label 1 1 1,2 8:9
kind 1 5
label 0 0 - 10:0
label 1 1 1 9:3
label 2 2 2 9:6
label 2 2 1,2 8:8
label 1 1 1,2 8:11
"""

SHARES = "root exact 1 2\nshare 1 1 0 1 0\nshare 1 0 0 2 0"

# What becomes of it, and the first line that is put.
MIXED_SHOWN = [
    ("bound 14", "bound 14", "accepted"),
    ("bound 14", "bound 13", "accepted"),
    ("5\nlabel 0 0 - 10:0\nlabel 1 1 1 9:4", "4\nlabel 1 1 1 9:4", "rejected mixed 1 kind 0"),
    ("5\nlabel 0 0 - 10:0\nlabel 1 1 1 9:3", "4\nlabel 1 1 1 9:3", "rejected mixed 1 kind 1"),
    (
        "5\nlabel 0 0 - 10:0\nlabel 1 1 1 9:4",
        "4\nlabel 0 0 - 10:0",
        "rejected mixed 2 kind 0 label 0 node 1",
    ),
    (
        "5\nlabel 0 0 - 10:0\nlabel 1 1 1 9:3\nlabel 2 2 2 9:6",
        "4\nlabel 0 0 - 10:0\nlabel 1 1 1 9:3",
        "rejected mixed 2 kind 1 label 0 node 2",
    ),
    ("prices 6 8", "prices 8 8", "rejected mixed 3 kind 1 label 1"),
    ("prices 6 8", "prices 9 8", "rejected mixed 3 kind 0 label 1"),
    ("bound 14", "bound 15", "rejected mixed 4"),
    ("bound 14", "bound none", "rejected mixed 4"),
    ("share 1 1 0 1 0", "share 1 0 0 1 0", "rejected mixed 5"),
    (SHARES, "root exact 1 2\nshare 1 0 0 1 0\nshare 1 1 0 2 0", "rejected mixed 5"),
    (
        SHARES,
        "root exact 2 3\nshare 1 1 0 1 0\nshare 2 0 0 2 0\nshare 1 1 0 1 0",
        "accepted",
    ),
    (
        SHARES,
        "root exact 2 3\nshare 1 1 0 1 0\nshare 2 0 0 2 0\nshare 1 0 0 1 0",
        "rejected mixed 5",
    ),
    (SHARES, "root exact 1 1\nshare 1 1 0 1 0", "rejected mixed 5"),
    (SHARES, "root none", "rejected mixed 5"),
    (SHARES, "root wide 2\ncolumn 1 0 1 0\ncolumn 0 0 2 0\nbasis 0 1", "rejected mixed 5"),
]

# Plan files on the instance with one station, and the rule that they break, or what they cost.
JUDGED_PLANS = [
    ("routes 1\nroute 0 v2+1 1 0\n", "cost 43/2"),
    ("routes 1\nroute 0\n", "plan 1 route 0 walk 1"),
    ("routes 2\nroute 0 v2+1 1 0\nroute 0 v2+1 7 0\n", "plan 1 route 1 walk 2 at 2"),
    ("routes 1\nroute 0 v2+1 1 1 0\n", "plan 1 route 0 walk 3 at 3"),
    ("routes 1\nroute 0 1 0\n", "plan 1 route 0 walk 4 at 2"),
    (
        "routes 3\nroute 0 v2+1 1 0\nroute 0 v2+1 1 0\nroute 0 1 0\n",
        "plan 1 route 2 walk 4 at 2",
    ),
    ("routes 1\nroute 0 v2+1 v1 0\n", "plan 1 route 0 walk 5 at 2"),
    ("routes 1\nroute 0 v2+4 1 0\n", "plan 1 route 0 walk 6 at 1"),
    ("routes 2\nroute 0 v2+1 1 0\nroute 0 v2+1 1 0\n", "plan 2 customer 1"),
    ("routes 1\nroute 0 v2+3 1 v2+4 1 0\n", "plan 2 customer 1"),
    ("routes 0\n", "plan 3 customer 1"),
    ("routes 2\nroute 0 v2+1 1 0\nroute 0 v2 0\n", "plan 4 route 1"),
    ("routes 2\nroute 0 2+1 1 0\nroute 0 v2 0\n", "plan 4 route 1"),
    ("routes 1\nroute 0 2+1 1 0\n", "plan 5 route 0 at 1"),
]

# Plan files of two kinds over two customers, and the same.
JUDGED_MIXED_PLANS = [
    ("routes 2\nkind 1 route 0 1 0\nkind 0 route 0 2 0\n", "cost 14/1"),
    ("routes 2\nkind 0 route 0 1 0\nkind 1 route 0 2 0\n", "cost 20/1"),
    ("routes 1\nkind 0 route 0 1 2 0\n", "cost 13/1"),
    ("routes 1\nkind 1 route 0 1 2 0\n", "cost 14/1"),
    ("routes 2\nkind 0 route 0 1 0\nkind 1 route 0 1 2 0\n", "plan 2 customer 1"),
    ("routes 1\nkind 1 route 0 1 0\n", "plan 3 customer 2"),
    ("routes 1\nkind 1 route 0 1 1 0\n", "plan 1 route 0 walk 3 at 2"),
]

# Routes of instances, by the words behind `fixed`, and what is put, a line behind another.
ROUTES = [
    ("one_station 0,1,0", "time 43/2; at 0; via 2 charge 1; at 1; at 0"),
    ("one_station 0,1,0 --charge 5", "time 48/2; at 0; via 2 charge 6; at 1; at 0"),
    ("one_station 0,1,0 --charge 3", "time 50/2; at 0; via 2 charge 8; at 1; at 0"),
    ("one_station 0,1,0 --charge 2", "infeasible"),
    ("one_station 0,1,0 --limit 21", "infeasible"),
    ("one_station 0,1,0 --limit 22", "time 43/2; at 0; via 2 charge 1; at 1; at 0"),
    (
        "two_stations 0,1,0",
        "time 110/2; at 0; via 2 charge 6; via 3 charge 8; at 1; "
        "via 3 charge 8; via 2 charge 8; at 0",
    ),
    ("two_stations 0,1,0 --limit 54", "infeasible"),
    ("no_station 0,1,0", "time 8/1; at 0; at 1; at 0"),
    ("no_station 0,1,0 --charge 1", "infeasible"),
    ("plug_time 0,1,0 --limit 22", "infeasible"),
    ("plug_time 0,1,0 --limit 23", "time 45/2; at 0; via 2 charge 1; at 1; at 0"),
    ("two_plug_times 0,1,0 --limit 58", "infeasible"),
    (
        "two_plug_times 0,1,0 --limit 59",
        "time 118/2; at 0; via 2 charge 6; via 3 charge 8; at 1; "
        "via 3 charge 8; via 2 charge 8; at 0",
    ),
    ("reserve 0,1,0", "time 46/2; at 0; at 1; via 2 charge 4; at 0"),
    ("reserve 0,1,0 --charge 7", "time 50/2; at 0; via 2 charge 1; at 1; via 2 charge 5; at 0"),
    ("home_level 0,1,0", "time 60/2; at 0; at 1; via 2 charge 8; at 0"),
    ("home_level_too_high 0,1,0", "infeasible"),
    ("fine_units 0,1,0", "time 4300000000/200000000; at 0; via 2 charge 100000000; at 1; at 0"),
    ("two_customers 0,1,2,0", "time 13/1; at 0; at 1; at 2; at 0"),
    ("two_customers 0,2,0 --charge 1", "infeasible"),
    ("three_customers 0,3,1,2,0 --limit 14", "time 14/1; at 0; at 3; at 1; at 2; at 0"),
    ("three_customers 0,3,1,2,0 --limit 13", "infeasible"),
    (
        "converted 0,1,0",
        "time 11467048/27200; at 0; via 2 charge 2102; at 1; at 0",
    ),
    ("converted 0,1,0 --charge 4999", "infeasible"),
    ("one_station 0,1000000001,0", "refused route 1 at 2"),
    ("one_station 0,1000000000,0", "refused route 3 at 1"),
    ("one_station 1,0,0", "refused route 4"),
    ("one_station 0,0,0", "refused route 5 at 1"),
    ("one_station 0,1,1,0", "refused route 6 at 2"),
    ("one_station 0,1,0 --limit 500000000000000001", "refused limit 500000000000000001"),
    ("one_station 0,1,0 --charge 11", "refused charge 11"),
]

# Fleets of instances, by the words behind `fleet` and its files, and what is put.
FLEETS = [
    ("depot_alone --limit 10", "cost 0/1; bound 0/1; gap 0/1; root exact 0/1"),
    ("one_station --limit 43", "cost 43/2; bound 43/2; gap 0/2; root exact 43/2"),
    ("two_customers --limit 13", "cost 13/1; bound 13/1; gap 0/1; root exact 13/1"),
    ("two_customers --limit 12", "cost 16/1; bound 16/1; gap 0/1; root exact 16/1"),
    ("two_customers --limit 7", "infeasible"),
    ("three_customers --limit 11", "cost 19/1; bound 19/1; gap 0/1; root exact 33/2"),
    (
        "three_customers --limit 11 --nodes 1",
        "cost 19/1; bound 17/1; gap 2/1; root exact 33/2; nodes 1",
    ),
]

# Bounds of instances, by the words behind `bound` and its files, what is put, and the prices.
BOUNDS = [
    ("three_customers --near 2", "bound 14/1", "8 3 3"),
    ("three_customers --near 2 --limit 11", "bound 14/1", "8 3 3"),
    ("three_customers --near 0", "bound 7/1", "7 0 0"),
    ("one_station --near 0", "bound 43/2", "43"),
    ("two_customers --near 1 --limit 7", "infeasible", None),
    ("two_customers --near 1 --limit 8", "bound 16/1", "8 8"),
    ("depot_alone --near 1000000000", "bound 0/1", ""),
    ("no_station --near 1000000000", "bound 8/1", "8"),
    ("three_customers --near 2 --limit 0", "infeasible", None),
    ("second_out_of_reach --near 1", "infeasible", None),
    ("ring --near 0", "bound 8/1", "8 0"),
    ("ring --near 1", "bound 8/1", "8 0"),
    ("one_place --near 4", "bound 11/1", "5 1 1 1 3"),
]

# Numbers from which instances are made, and how long they are and what their bytes sum up to: each
# byte is added to 257 times the sum before it, modulo 2^64. They are those of another program.
MADE = [
    ("1 1 0", 278, 12024625489461982521),
    ("2147483646 1 1", 358, 9073417892619304298),
    ("7 120 20", 165027, 11099897008358716576),
    ("1 399 0", 1331594, 2280372628075118999),
    ("2147483646 1 398", 1339953, 13899763821146825443),
]

# Numbers from which none is made.
NOT_MADE = [
    "0 1 0", "2147483647 1 0", "18446744073709551615 1 0", "1 0 0", "1 0 399", "1 400 0", "1 1 399",
    "1 399 1", "1 4294967295 4294967295",
]  # fmt: skip

# Files of kinds, and what is put of them.
KINDS = [
    ("two_customers two_customers_other_times two_customers_again", "cost 13/1"),
    ("two_customers three_customers no_station", "refused kinds 1"),
    ("two_customers two_customers_other_times no_station", "refused kinds 2"),
    ("two_customers other_customers", "refused kinds 1"),
    ("whole_slope one_station", "refused kinds 1"),
]

# Calls that fail, and what people are told: which file, and why.
TOLD = [
    ("fixed missing 0,1,0", "missing: No such file or directory (os error 2)"),
    ("fixed / 0,1,0", "/: Is a directory (os error 21)"),
    ("make 7 1 1 /", "/: Is a directory (os error 21)"),
    ("make 7 1 1 /dev/full", "/dev/full: No space left on device (os error 28)"),
    ("make 7 1 1 missing/a", "missing/a: No such file or directory (os error 2)"),
    (
        "fleet one_station.json same ./same",
        "./same: this job read or wrote the same file under another name",
    ),
]
