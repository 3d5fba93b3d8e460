"""Words with the job that they ask for, worked out by hand, and counts and seeds of generated scripts."""
RUN = 'run workers 0 log 20480'
COMMITMENTS = 'commitments workers 0 log 20480'
DUMP = 'dump workers 0 log 20480'
AUDIT = 'audit'
GEN = 'gen count 1 seed 7 workers 0'
USAGE = 'usage'
MOST_SEED = 2 ** 64 - 1

# the words, each with a bar before it
WORDS = [
    # the command
    ('', USAGE), ('|', USAGE), ('|run', RUN), ('|gen', USAGE), ('|help', USAGE), ('|-h', USAGE), ('|--help', USAGE), ('|--version', USAGE),
    ('|-V', USAGE), ('|-', USAGE), ('|--', USAGE), ('|--|run', USAGE), ('|-|run', USAGE), ('||run', USAGE), ('|RUN', USAGE), ('|runs', USAGE),
    ('|ru', USAGE), ('|run ', USAGE), ('|run=1', USAGE), ('|--run', USAGE), ('|--workers|1|run', USAGE), ('|--workers=1|run', USAGE),
    ('|1|7|gen', USAGE), ('|audits', USAGE), ('|Audit', USAGE), ('|dumps', USAGE), ('|commitment', USAGE),
    # no positionals of a run
    ('|run|run', USAGE), ('|run|', USAGE), ('|run|1', USAGE), ('|run|-', USAGE), ('|run|gen|1|7', USAGE), ('|run|1|--workers|2', USAGE),
    ('|run|1|7', USAGE),
    # options of a run
    ('|run|--workers|2', 'run workers 2 log 20480'), ('|run|--workers=2', 'run workers 2 log 20480'), ('|run|--log|5', 'run workers 0 log 5'),
    ('|run|--log=5', 'run workers 0 log 5'), ('|run|--log|5|--workers|3', 'run workers 3 log 5'),
    ('|run|--workers=3|--log|5', 'run workers 3 log 5'), ('|run|--log=20480|--workers=0', RUN), ('|run|--workers', USAGE),
    ('|run|--workers=', USAGE), ('|run|--workers|', USAGE), ('|run|--workers||2', USAGE), ('|run|--workers|=2', USAGE),
    ('|run|--workers==2', USAGE), ('|run|--workers=2=', USAGE), ('|run|--workers|2|3', USAGE), ('|run|--log|5|', USAGE),
    ('|run|--workers|--log|5', USAGE), ('|run|--workers|--|2', USAGE), ('|run|--workers|-', USAGE), ('|run|--workers|-1', USAGE),
    ('|run|--workers=-1', USAGE), ('|run|--=2', USAGE), ('|run|--work|2', USAGE), ('|run|--worker=2', USAGE), ('|run|--Workers|2', USAGE),
    ('|run|-workers|2', USAGE), ('|run|-w|2', USAGE), ('|run|-w2', USAGE), ('|run|---workers|2', USAGE), ('|run|workers|2', USAGE),
    ('|run|--workers 2', USAGE), ('|run|--count|1', USAGE), ('|run|--seed=7', USAGE), ('|run|--x', USAGE),
    # commitments and a dump have the options of a run
    ('|commitments', COMMITMENTS), ('|commitments|--workers=3|--log|5', 'commitments workers 3 log 5'), ('|commitments|--log|0', USAGE),
    ('|commitments|1', USAGE), ('|dump', DUMP), ('|dump|--', DUMP), ('|dump|--workers|2', 'dump workers 2 log 20480'),
    ('|dump|--log=5', 'dump workers 0 log 5'), ('|dump|--log=5|--workers|3', 'dump workers 3 log 5'), ('|dump|--log|0', USAGE),
    ('|dump|--workers|9', USAGE), ('|dump|--workers', USAGE), ('|dump|--log=5|--log=5', USAGE), ('|dump|1|7', USAGE), ('|dump|', USAGE),
    ('|dump|audit', USAGE), ('|dump|--help', USAGE),
    # an audit has none
    ('|audit', AUDIT), ('|audit|--', AUDIT), ('|audit|--workers|0', USAGE), ('|audit|--workers=2', USAGE), ('|audit|--log|5', USAGE),
    ('|audit|--log=20480', USAGE), ('|audit|1', USAGE), ('|audit|', USAGE), ('|audit|1|7', USAGE), ('|audit|--|1', USAGE), ('|audit|dump', USAGE),
    ('|audit|--help', USAGE), ('|audit|-h', USAGE), ('|audit|-', USAGE),
    # an option twice
    ('|run|--log|5|--log|5', USAGE), ('|run|--log=5|--log=5', USAGE), ('|run|--log|5|--log=6', USAGE), ('|run|--workers=0|--workers|0', USAGE),
    ('|run|--workers|1|--log|5|--workers|1', USAGE), ('|gen|--workers=1|1|7|--workers=1', USAGE),
    # help behind a command
    ('|run|--help', USAGE), ('|run|-h', USAGE), ('|run|help', USAGE), ('|run|--workers|2|--help', USAGE), ('|run|--version', USAGE),
    ('|run|--help=1', USAGE), ('|gen|1|7|--help', USAGE), ('|gen|1|7|-h', USAGE), ('|gen|help', USAGE), ('|help|run', USAGE), ('|gen|--help|7', USAGE),
    # behind `--` no word is an option
    ('|run|--', RUN), ('|run|--workers|2|--', 'run workers 2 log 20480'), ('|run|--|--', USAGE), ('|run|--|--workers|2', USAGE),
    ('|run|--|--workers=2', USAGE), ('|run|--|', USAGE), ('|run|--|--help', USAGE), ('|gen|--|1|7', GEN), ('|gen|1|--|7', GEN), ('|gen|1|7|--', GEN),
    ('|gen|--workers=2|--|1|7', 'gen count 1 seed 7 workers 2'), ('|gen|1|7|--|--workers=1', USAGE), ('|gen|1|--|--workers=1', USAGE),
    ('|gen|1|7|--|--', USAGE), ('|gen|--|1|--|7', USAGE), ('|gen|--|1', USAGE), ('|gen|--|-1|7', USAGE), ('|run|--=', USAGE),
    # the range of the workers and of the log
    ('|run|--workers|0', RUN), ('|run|--workers|8', 'run workers 8 log 20480'), ('|run|--workers|9', USAGE), ('|run|--workers=10', USAGE),
    ('|run|--log|0', USAGE), ('|run|--log|1', 'run workers 0 log 1'), ('|run|--log|20480', RUN), ('|run|--log|20481', USAGE),
    ('|run|--log|4294967297', USAGE), ('|run|--workers|4294967296', USAGE), ('|run|--workers|18446744073709551616', USAGE),
    ('|gen|1|7|--workers|8', 'gen count 1 seed 7 workers 8'), ('|gen|1|7|--workers|9', USAGE),
    # count and seed
    ('|gen|1|7', GEN), ('|gen|7|1', 'gen count 7 seed 1 workers 0'), ('|gen|1', USAGE), ('|gen|1|7|', USAGE), ('|gen|1|7|3', USAGE),
    ('|gen||7', USAGE), ('|gen|1|', USAGE), ('|gen|0|7', USAGE), ('|gen|1024|0', 'gen count 1024 seed 0 workers 0'), ('|gen|1025|7', USAGE),
    ('|gen|1|18446744073709551615', 'gen count 1 seed 18446744073709551615 workers 0'), ('|gen|1|18446744073709551616', USAGE),
    ('|gen|1|99999999999999999999', USAGE), ('|gen|4294967297|7', USAGE), ('|gen|1|-7', USAGE), ('|gen|-1|7', USAGE), ('|gen|1|7|--log|5', USAGE),
    ('|gen|1|7|--log=20480', USAGE), ('|gen|--workers|1|1|7', 'gen count 1 seed 7 workers 1'), ('|gen|1|--workers=1|7', 'gen count 1 seed 7 workers 1'),
    ('|gen|1|--workers|7', USAGE), ('|gen|--workers|1|7', USAGE),
    # digits: 1 to 20, zeros in front among them
    ('|gen|01|007', GEN), ('|gen|00000000000000000001|00000000000000000007', GEN), ('|gen|000000000000000000001|7', USAGE),
    ('|gen|1|000000000000000000007', USAGE), ('|gen|1|00000000000000000000', 'gen count 1 seed 0 workers 0'), ('|gen|1|000000000000000000000', USAGE),
    ('|gen|00|7', USAGE), ('|gen|1|184467440737095516150', USAGE), ('|gen|1|018446744073709551615', USAGE),
    ('|gen|1|10000000000000000000', 'gen count 1 seed 10000000000000000000 workers 0'), ('|run|--workers|00000000000000000001', 'run workers 1 log 20480'),
    ('|run|--workers|000000000000000000001', USAGE), ('|run|--log|00000000000000020480', RUN), ('|run|--log=000000000000000020480', USAGE),
    # no digits
    ('|run|--workers|+1', USAGE), ('|run|--workers|1 ', USAGE), ('|run|--workers| 1', USAGE), ('|run|--workers|1.0', USAGE), ('|run|--workers|1e0', USAGE),
    ('|run|--workers|0x1', USAGE), ('|run|--workers|1_0', USAGE), ('|run|--workers|one', USAGE), ('|run|--workers|\u0663', USAGE),
    ('|gen|\uff11|7', USAGE), ('|gen|1|7a', USAGE), ('|gen|1,|7', USAGE)] + [
    ('|gen|1|' + '1' * digits, 'gen count 1 seed %s workers 0' % ('1' * digits)) for digits in range(1, 21)] + [
    ('|gen|1|' + '1' * 21, USAGE)]

# a count, a seed, and lines that were worked out by hand
GENERATED = [
    (0, 7, []),
    (1, 7, ['G1 c0 as A1 now create Iou.Iou(A1,A2,211)', 'G2 t0 as A2 now exercise Iou.Iou #G1:c0:0 Transfer(A3)']),
    (2, 7, ['G3 t1 as A3 now exercise Iou.Iou #G2:c1:0 Transfer(A4)']),
    (8, 7, ['G1 t3 as A1 now exercise Iou.Iou #G4:c3:0 Transfer(A2)']),
    (9, 7, []),
    (10, 7, []),
    (11, 7, []),
    (100, 7, ['G1 t99 as A1 now exercise Iou.Iou #G4:c99:0 Transfer(A2)']),
    (1024, 7, ['round advance 0 paused 0 verdicts given submits 1024 raws 0']),
    (0, MOST_SEED, []),
    # the number after the greatest is 1442695040888963407 - 6364136223846793005 modulo 2^64
    (1, MOST_SEED, ['G1 c0 as A1 now create Iou.Iou(A1,A2,%d)' % (1 + 13525302890751722018 % 1000)]),
    (2, MOST_SEED, []),
    (8, MOST_SEED, []),
    (9, MOST_SEED, []),
    (100, MOST_SEED, []),
    (1, 0, ['G1 c0 as A1 now create Iou.Iou(A1,A2,408)'])]
