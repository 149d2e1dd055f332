//! Calls of the archive's entries.

/// Calls an entry. Arguments come in the order that all entries share: numbers, lists that are read, numbers, lists that are written, and
/// the variables that other results go to. A list goes as its pointer and its length.
macro_rules! call {
    ($entry:ident(
        $($first:expr),*
        $(; read $($read:expr),+)?
        $(; with $($with:expr),+)?
        $(; write $($written:expr),+)?
        $(; tell $($told:expr),+)?
    )) => {
        // SAFETY: the pointers and lengths are those of slices, of which those that are written are borrowed alone, and the other results
        // go to variables of their own; the call is total.
        unsafe {
            $crate::sys::$entry(
                $($first,)*
                $($($read.as_ptr(), $read.len(),)+)?
                $($($with,)+)?
                $($($written.as_mut_ptr(), $written.len(),)+)?
                $($(&mut $told,)+)?
            )
        }
    };
}

/// Calls an entry whose first arguments are a graph, with its floor where `floor` stands behind it.
macro_rules! call_of_graph {
    ($entry:ident(
        $graph:expr $(, $floor:ident)?
        $(; read $($read:expr),+)?
        $(; with $($with:expr),+)?
        $(; write $($written:expr),+)?
        $(; tell $($told:expr),+)?
    )) => {{
        let graph = $graph;
        $crate::call::call!($entry(
            graph.n $(, graph.$floor)?;
            read graph.a, graph.b, graph.m $($(, $read)+)?
            $(; with $($with),+)?
            $(; write $($written),+)?
            $(; tell $($told),+)?
        ))
    }};
}

/// Calls an entry whose first arguments are a strip.
macro_rules! call_of_strip {
    ($entry:ident($strip:expr $(; $other:ident $($others:expr),+)*)) => {{
        let strip = $strip;
        $crate::call::call!($entry(strip.kind.number(), strip.width, strip.length, strip.periodic $(; $other $($others),+)*))
    }};
}

pub(crate) use {call, call_of_graph, call_of_strip};
