//! The plot: what stands in it, and where.

mod common;
use common::printed;

/// The numbers behind every `start` of a text, as many as are asked for.
fn numbers(svg: &str, start: &str, count: usize) -> Vec<Vec<f64>> {
    let number = |text: &str| text.trim_end_matches(|c: char| !c.is_ascii_digit()).parse::<f64>().ok();
    let cell = |text: &str| number(&text.chars().take_while(|c| c.is_ascii_digit() || ".-".contains(*c)).collect::<String>());
    let list = |part: &str| part.split([' ', '"', ',']).filter_map(cell).take(count).collect();
    svg.split(start).skip(1).map(list).collect()
}

/// What is drawn, and what stands beside it.
fn parts(svg: &str) -> (String, String) {
    let (drawn, legend) = svg.split_once("<g class=\"legend\">").unwrap();
    (drawn.to_string(), legend.split_once("</g>").unwrap().0.to_string())
}

fn texts(svg: &str) -> Vec<String> {
    svg.lines().filter(|line| line.starts_with("<text ")).map(|line| line.split(['>', '<']).nth(2).unwrap().to_string()).collect()
}

const PLUS: &str = "--kind square --width 8 --length 12 --beta 0.2,0.44,0.8 --signs plus --format svg";

#[test]
fn every_point_is_inside_the_frame_and_the_legend_is_not() {
    let many: String = (0..64).map(|i| format!("{},", 0.05 + 0.02 * f64::from(i))).collect();
    let many = many.trim_end_matches(',');
    for line in [
        PLUS.to_string(),
        format!("{PLUS} --linear"),
        format!("--kind honey --width 6 --length 14 --beta {many} --seed 5 --format svg"),
        format!("--kind honey --width 6 --length 14 --beta {many} --seed 5 --format svg --linear"),
        "--kind tri --width 3 --length 5 --beta 0.5 --format svg".to_string(),
        "--kind tri --width 6 --length 12 --cylinder --beta 0.3,0.5 --sample 20 --chunks 3 --format svg".to_string(),
        "--kind square --width 1 --length 2 --beta 1 --format svg".to_string(),
        "--kind square --width 3 --length 300 --beta -1.2345678901234567e-5,0.6931471805599453 --signs plus --format svg".to_string(),
    ] {
        let svg = printed(&line);
        let (drawn, legend) = parts(&svg);
        let frame = &numbers(&drawn, "<rect x=\"", 4)[0];
        let (left, top, right, bottom) = (frame[0], frame[1], frame[0] + frame[2], frame[1] + frame[3]);
        let marks = numbers(&drawn, "<path class=\"mark\" d=\"M", 2);
        assert!(!marks.is_empty(), "{line}");
        // a mark is not wider than ten units, nor higher
        let (left_of, right_of) = (left + 10.0, right - 10.0);
        assert!(marks.iter().all(|at| at[0] > left_of && at[0] < right_of && at[1] > top + 5.0 && at[1] < bottom - 5.0), "{line}");
        let bars: Vec<&str> = drawn.lines().filter(|line| line.contains("class=\"error\"")).collect();
        let inside = |bar: &&str| numbers(bar, " y", 2).iter().flatten().all(|y| *y >= top && *y <= bottom || *y == 1.0 || *y == 2.0);
        assert!(bars.iter().all(inside) && bars.is_empty() != line.contains("--sample"), "{line}");
        let named = numbers(&legend, " x=\"", 1).into_iter().chain(numbers(&legend, "<path class=\"mark\" d=\"M", 1));
        assert!(named.into_iter().all(|at| at[0] > right), "{legend}");
        // no letter is wider than eight units
        let page = numbers(&svg, "viewBox=\"0 0 ", 1)[0][0];
        assert!(texts(&legend).iter().all(|text| 8.0 * text.chars().count() as f64 + right + 50.0 < page), "{legend}");
        assert_eq!(svg.matches("<g ").count(), svg.matches("</g>").count());
    }
}

#[test]
fn the_axis_is_logarithmic_where_values_span_decades() {
    let (log, linear) = (texts(&printed(PLUS)), texts(&printed(&format!("{PLUS} --linear"))));
    let has = |texts: &[String], text: &str| texts.iter().any(|t| t == text);
    assert!(has(&log, "1e-7") && has(&log, "correlation") && !has(&log, "0.25"), "{log:?}");
    assert!(has(&linear, "0.25") && has(&linear, "correlation") && !has(&linear, "1e-7"), "{linear:?}");
    let signed = texts(&printed("--kind tri --width 3 --length 9 --beta 0.3 --seed 5 --format svg"));
    assert!(has(&signed, "size of the correlation") && has(&signed, "1e-1"), "{signed:?}");
    let near = texts(&printed("--kind square --width 3 --length 3 --beta 1.5 --format svg --pairs 0-1,4-5"));
    assert!(has(&near, "mean square") && has(&near, "0.25"), "{near:?}");
}

#[test]
fn families_have_a_mark_and_a_line_each() {
    let svg = printed("--kind square --width 6 --length 8 --beta 0.5 --signs plus --format svg");
    let (drawn, legend) = parts(&svg);
    let families = ["boundary, across", "boundary, along", "opposite corners", "centre, along", "centre, across"];
    assert_eq!(texts(&legend), [&families[..], &["beta 0.5"]].concat());
    // the corners are one pair
    assert_eq!(drawn.matches("<polyline").count(), 4);
    let given = parts(&printed("--kind square --width 6 --length 8 --beta 0.5 --signs plus --format svg --pairs 0-1,0-6,0-7,1-13")).1;
    assert_eq!(texts(&given), ["across", "along", "oblique", "beta 0.5"]);
}

#[test]
fn of_many_betas_twelve_are_named() {
    let betas = |count: usize| {
        let list: Vec<String> = (1..=count).map(|i| format!("{}", i as f64 / 64.0)).collect();
        let svg = printed(&format!("--kind tri --width 3 --length 4 --beta {} --signs plus --format svg", list.join(",")));
        texts(&parts(&svg).1).into_iter().filter(|text| text.starts_with("beta ") || text.starts_with('+')).collect::<Vec<_>>()
    };
    assert_eq!((betas(12).len(), betas(13).len(), betas(64).len()), (12, 13, 13));
    assert_eq!((betas(13)[12].as_str(), betas(64)[12].as_str()), ("+ 1 more", "+ 52 more"));
    assert_eq!((betas(64)[0].as_str(), betas(64)[11].as_str()), ("beta 0.015625", "beta 1"));
}

#[test]
fn samples_have_error_bars() {
    let job = "--kind square --width 3 --length 5 --beta 0.5 --format svg";
    let marks = |line: &str| parts(&printed(line)).0.matches("class=\"mark\"").count();
    let bars = |line: &str| parts(&printed(line)).0.matches("class=\"error\"").count();
    let sampled = format!("{job} --sample 30");
    assert!(marks(&sampled) > 5);
    // a bar and two caps
    assert_eq!(bars(&sampled), 3 * marks(&sampled));
    assert_eq!((bars(job), bars(&format!("{job} --sample 1")), bars(&format!("{job} --seed 3"))), (0, 0, 0));
    assert!(texts(&printed(&sampled)).contains(&"bars: one standard error to either side".to_string()));
    // nothing was drawn of an enumeration: it has spreads, and no bars
    let (all, told) =
        (printed(job), "no bars: every configuration is counted, so no mean has a sampling error; a mark's title has its spread");
    assert!(texts(&all).contains(&told.to_string()) && !texts(&printed(&sampled)).contains(&told.to_string()));
    assert_eq!(parts(&all).0.matches(", spread ").count(), marks(job));
}

#[test]
fn what_is_not_shown_is_told() {
    let apart = texts(&printed("--kind square --width 1 --length 3 --beta 1 --dilute 0,1,1,5 --pairs 0-2,1-0 --format svg"));
    assert!(apart.contains(&"not joined by kept edges, and not shown: 0-2, 1-0".to_string()), "{apart:?}");
    let noise = texts(&printed("--kind square --width 8 --length 16 --beta 0.01 --signs plus --pairs 0-1,0-7 --format svg --linear"));
    assert!(!noise.iter().any(|text| text.starts_with("not shown")));
    let noise = texts(&printed("--kind square --width 8 --length 16 --beta 0.01 --signs plus --pairs 0-1,0-2,0-3,0-7 --format svg"));
    let told = "not shown: 1 of 4 values, which are below their error bound, or below 1e-15 where none is proved";
    assert!(noise.contains(&told.to_string()), "{noise:?}");
    let minus = texts(&printed("--kind tri --width 3 --length 6 --beta 1 --seed 3 --format svg"));
    assert!(minus.contains(&"hollow marks: negative values".to_string()), "{minus:?}");
}

#[test]
fn no_line_leaves_the_page() {
    let signs = "-".repeat(172);
    let line =
        format!("--kind square --width 8 --length 12 --beta 0.4 --dilute 1,0.123456789,1.23456789,18446744073709551615 --signs {signs}");
    let svg = printed(&format!("{line} --format svg"));
    let (head, record) = svg.split_once("<g class=\"record\"").unwrap();
    assert!(texts(head).iter().all(|text| text.chars().count() <= 125));
    assert!(texts(record).iter().all(|text| text.chars().count() <= 145));
}
