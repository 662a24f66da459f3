//! The objects of --json.
use crate::common::{ended, own, quiet, run, stored, told};

/// Runs with --json and gives the status and the lines.
fn lines(words: &[&str]) -> (i32, Vec<String>) {
    let (status, out, _) = told(&[words, &["--json"]].concat());
    (status, out.lines().map(String::from).collect())
}

#[test]
fn judge_prints_an_object_a_file() {
    let good = quiet("object.mod", &[]);
    let bad = quiet("bad \"object\".mod", &[3, 0x59, 0, 0]);
    let (status, lines) = lines(&["judge", "--notes", &good, "no/such", &bad]);
    assert_eq!(status, 2);
    let bad = bad.replace('"', "\\\"");
    let meaning = "a cell's period is neither 0 nor 113 to 856";
    assert_eq!(
        lines,
        [
            format!(
                r#"{{"schema":1,"file":"{good}","number":0,"place":0,"meaning":"accepted","notes":[]}}"#
            ),
            r#"{"schema":1,"file":"no/such","error":"No such file or directory"}"#.into(),
            format!(
                r#"{{"schema":1,"file":"{bad}","number":9,"place":1084,"meaning":"{meaning}","pattern":0,"row":0,"channel":1,"period":857}}"#
            ),
        ]
    );
}

#[test]
fn info_prints_one_object() {
    let name = quiet("info_object.mod", &[0, 0, 0x08, 0x11]);
    let (status, lines) = lines(&["info", &name]);
    let parts = [
        format!(
            r#"{{"schema":1,"file":"{name}","number":0,"place":0,"meaning":"accepted","title":"","#
        ),
        r#""channels":4,"song_length":1,"patterns":1,"table":[0],"ticks":384,"frames":368640,"#
            .into(),
        r#""comes_back_to":{"position":0,"row":0},"samples":[],"#.into(),
        r#""notes":[{"effect":"8","name":"panning","says":"does nothing","cells":1,"pattern":0,"row":0,"channel":1}]}"#
            .into(),
    ];
    assert_eq!((status, lines), (0, vec![parts.concat()]));
    let (_, lines) = self::lines(&["info", &stored("edges")]);
    let sample = r#""samples":[{"sample":1,"name":"","bytes":12,"volume":64,"finetune":0,"loop_start":4,"loop_length":6},"#;
    assert!(lines[0].contains(sample), "{}", lines[0]);
}

#[test]
fn trace_prints_an_object_a_tick() {
    let (status, lines) = lines(&["trace", &stored("effects"), "--ticks", "2"]);
    assert_eq!((status, lines.len()), (0, 2));
    let name = stored("effects");
    let start = format!(
        r#"{{"schema":1,"file":"{name}","tick":0,"position":0,"row":0,"tempo":255,"remainder":150,"frames":470,"channels":["#
    );
    let waves = r#""vibrato":{"x":0,"y":0,"place":0,"form":"sine"},"tremolo":{"x":0,"y":0,"place":0,"form":"sine"}}"#;
    let channel =
        r#"{"changed":true,"sample":1,"volume":64,"period":428,"starts_at":0,"finetune":0,"#;
    let start = start + channel + waves + ",";
    assert!(lines[0].starts_with(&start), "{}", lines[0]);
    let end = r#"{"changed":false,"sample":0,"volume":0,"period":0,"starts_at":null,"finetune":0,"#;
    let end = format!("{end}{waves}]}}");
    assert!(lines[1].ends_with(&end), "{}", lines[1]);
}

#[test]
fn why_prints_an_object_a_channel() {
    let name = stored("effects");
    let (status, lines) = lines(&["why", &name, "--ticks", "3"]);
    assert_eq!((status, lines.len()), (0, 4));
    let start = format!(
        r#"{{"schema":1,"file":"{name}","number":0,"place":0,"meaning":"accepted","ticks":3,"position":0,"row":0,"channel":4,"#
    );
    assert_eq!(lines[3], start + r#""cause":1,"says":"it has no sample"}"#);
    let (status, lines) = self::lines(&["why", &name, "--channel", "5"]);
    let line = format!(
        r#"{{"schema":1,"file":"{name}","number":25,"place":0,"meaning":"the module has no channel of this number","channels":4}}"#
    );
    assert_eq!((status, lines), (1, vec![line]));
}

#[test]
fn replay_prints_an_object_a_call() {
    let script = own("object.txt");
    std::fs::write(&script, "play 5\ntouch 1 5 0\n").unwrap();
    let (script, name) = (script.to_str().unwrap(), stored("flow"));
    let (status, lines) = lines(&["replay", &name, script]);
    let line = format!(
        r#"{{"schema":1,"file":"{name}","number":16,"place":0,"meaning":"the touch was made on another page","count":0,"call":"touch 1 5 0","clock":5,"page":0,"position":0,"row":1,"tick":2,"sound":""#
    );
    assert_eq!((status, lines.len()), (0, 2));
    assert!(lines[1].starts_with(&line), "{}", lines[1]);
    let record = own("object.record");
    let record = record.to_str().unwrap();
    assert_eq!(told(&["replay", &name, script, "--record", record]).0, 0);
    let (status, lines) = self::lines(&["replay", &name, record, "--check"]);
    let line = format!(
        r#"{{"schema":1,"file":"{record}","came_again":true,"calls":2,"ticks":5,"line":null,"difference":null}}"#
    );
    assert_eq!((status, lines), (0, vec![line]));
    let text = std::fs::read_to_string(record).unwrap();
    std::fs::write(record, ended(&text.replace("= 16 0", "= 17 0"))).unwrap();
    let (status, lines) = self::lines(&["replay", &name, record, "--check"]);
    let end = r#""line":6,"difference":"touch 1 5 0: number 16, recorded 17"}"#;
    assert!(status == 1 && lines[0].ends_with(end), "{}", lines[0]);
}

#[test]
fn compare_prints_one_object() {
    let name = stored("effects");
    let (status, lines) = lines(&["compare", &name, "--ticks", "20"]);
    let same = r#""offset":null,"end":null,"differing_frames":0,"largest_difference":null,"first":null,"last":null,"hints":[]"#;
    let line = format!(
        r#"{{"schema":1,"file":"{name}","number":0,"place":0,"meaning":"accepted","with":"board","equal":true,"ticks":20,"frames":9411,"asked_ticks":20,"song_ticks":null,{same}}}"#
    );
    assert_eq!((status, lines), (0, vec![line]));
    let sound = own("object.raw");
    std::fs::write(&sound, [0, 0, 0, 0]).unwrap();
    let words = ["compare", &name, sound.to_str().unwrap()];
    let (status, lines) = self::lines(&words);
    let end = format!(
        r#""equal":true,"ticks":0,"frames":1,"asked_ticks":null,"song_ticks":192,{same}}}"#
    );
    assert!(status == 0 && lines[0].ends_with(&end), "{}", lines[0]);
    let (status, lines) = self::lines(&[&words[..], &["--ticks", "1"]].concat());
    let short = same.replace(r#""end":null"#, r#""end":"short""#);
    let end = format!(
        r#""equal":false,"ticks":0,"frames":1,"asked_ticks":1,"song_ticks":null,{short}}}"#
    );
    assert!(status == 1 && lines[0].ends_with(&end), "{}", lines[0]);
    std::fs::write(&sound, [1, 0, 0, 0]).unwrap();
    let (status, lines) = self::lines(&words);
    let place = r#""tick":0,"position":0,"row":0,"frame":0,"from_beginning":0"#;
    let end = format!(
        r#""differing_frames":1,"largest_difference":1,"first":{{{place},"side":"left","player":0,"other":1}},"last":{{{place}}},"hints":["player is silent"]}}"#
    );
    let end = end.as_str();
    assert!(status == 1 && lines[0].ends_with(end), "{}", lines[0]);
}

#[test]
fn written_files_are_objects_too() {
    let (module, stream) = (&stored("effects"), "object.stream");
    let words = ["translate", module, "--ticks=3", "--out", stream];
    let accepted = r#""number":0,"place":0,"meaning":"accepted","#;
    let line = format!(
        r#"{{"schema":1,"file":"{module}",{accepted}"ticks":3,"bytes":40,"out":"{stream}"}}"#
    );
    assert_eq!(lines(&words), (0, vec![line]));
    let words = ["play", module, "--ticks=3", "--out", "object_3.raw"];
    let line = format!(
        r#"{{"schema":1,"file":"{module}",{accepted}"ticks":3,"frames":1411,"out":"object_3.raw"}}"#
    );
    assert_eq!(lines(&words), (0, vec![line]));
    // Beside the sound on standard output the object goes to standard error.
    let output = run(&["board", stream, module, "--out", "-", "--json"]);
    assert_eq!(output.stdout.len(), 4 * 1_411);
    let told = String::from_utf8(output.stderr).unwrap();
    let line = format!(
        r#"{{"schema":1,"file":"{stream}",{accepted}"module":"{module}","ticks_played":3,"bytes_taken":40,"frames":1411,"out":"-"}}"#
    );
    assert_eq!(told, line + "\n");
}

#[test]
fn a_refusal_is_an_object_too() {
    for command in ["info", "trace", "why", "compare"] {
        let (status, lines) = lines(&[command, "/dev/null"]);
        let line = r#"{"schema":1,"file":"/dev/null","number":1,"place":0,"meaning":"the file is shorter than 1,084 bytes"}"#;
        assert_eq!((status, lines), (1, vec![line.to_string()]), "{command}");
    }
    let (status, _, err) = told(&["judge", "--plain", "--json", "x"]);
    assert_eq!(status, 2);
    assert!(err.contains("exclude each other"));
}
