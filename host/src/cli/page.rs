//! A trial as one page: its picture, and what a hand did as a table.
use super::drawing::{escaped, time, Drawing};
use super::input::Source;
use super::scene::{age, Event, Scene, What};

const STYLE: &str = "
:root{color-scheme:light dark}
body{font-family:system-ui,sans-serif;margin:1.5rem;background:#fff;color:#1b1b1f}
figure{margin:0;overflow-x:auto}table{border-collapse:collapse;margin-top:1rem}caption{text-align:left;font-weight:600;padding:.4rem 0}
th,td{border-bottom:1px solid #b9b9c2;padding:.25rem .7rem;text-align:right;font-variant-numeric:tabular-nums}
th:last-child,td:last-child,th:nth-child(2),td.call{text-align:left}thead th{vertical-align:bottom}
@media(prefers-color-scheme:dark){body{background:#15161a;color:#ececf1}th,td{border-color:#4a4b55}}
@media print{body{background:#fff;color:#000;margin:0}figure{overflow:visible}svg{width:100%;height:auto}}
";

/// The page of a trial of a module.
pub fn page(source: &Source, trial: &Source, scene: &Scene) -> String {
    let (svg, name) = (Drawing::new(source, scene).svg(), escaped(&trial.name));
    let rows: String = scene.events.iter().map(|event| row(scene, event)).collect();
    format!(
        "<!DOCTYPE html>\n<html lang=\"en\">\n<head>\n<meta charset=\"utf-8\">\n<meta name=\"viewport\" content=\"width=device-width\">\n\
         <title>Trial {name}</title>\n<style>{STYLE}</style>\n</head>\n<body>\n<h1>Trial {name}</h1>\n<p>A circle is where a touch was made, \
         a square where it came: filled if it was accepted, crossed if it was refused. A dashed line is a page change.</p>\n<figure>\n{svg}</figure>\n\
         <table>\n<caption>Touches and page changes</caption>\n<thead><tr><th scope=\"col\">line</th><th scope=\"col\">call</th><th \
         scope=\"col\">page</th><th scope=\"col\">made at clock</th><th scope=\"col\">came at clock</th><th scope=\"col\">age in ticks</th><th \
         scope=\"col\">seconds</th><th scope=\"col\">to position</th><th scope=\"col\">answer</th></tr></thead>\n<tbody>\n{rows}</tbody>\n\
         </table>\n</body>\n</html>\n"
    )
}

fn row(scene: &Scene, event: &Event) -> String {
    let (line, clock) = (event.line, event.clock);
    let at = time(scene.frames_at(event.tick));
    match &event.what {
        What::Page(page) => format!(
            "<tr><td>{line}</td><td class=\"call\">page change</td><td>{page}</td><td></td><td>{clock}</td><td></td><td>{at:.3}</td><td></td>\
             <td>accepted</td></tr>\n"
        ),
        What::Touch(touch, answer) => {
            let (page, made, position) = (touch.page, touch.made, touch.position);
            let (age, said) = (age(clock, touch), escaped(&answer.to_string()));
            format!(
                "<tr><td>{line}</td><td class=\"call\">touch</td><td>{page}</td><td>{made}</td><td>{clock}</td><td>{age}</td><td>{at:.3}</td>\
                 <td>{position}</td><td>{said}</td></tr>\n"
            )
        }
    }
}
