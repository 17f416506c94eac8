//! Object lists of every total that matters, and such as cannot be filled.

use crate::sessions::lists::{any_list, bad_list};
use crate::sessions::tweak::{tweak, Tweak};

/// Object lists of every total that matters, in both requests.
pub fn list_edges() -> Vec<Tweak> {
    let mut all = Vec::new();
    for (tag, reason) in [(0x8C, Some(9)), (0x8D, None)] {
        for total in [0, 1, 127, 128, 251, 252] {
            all.push(tweak(0, &format!("{tag:X} asks {total}"), move |_, card, r| {
                card.set(tag, any_list(Some(total), r), r);
            }));
        }
        for total in [253, 254, 255] {
            all.push(Tweak {
                reason,
                ..tweak(9, &format!("{tag:X} asks {total}"), move |_, card, r| {
                    card.set(tag, any_list(Some(total), r), r);
                })
            });
        }
        all.push(Tweak {
            reason,
            ..tweak(9, &format!("{tag:X} bad"), move |_, card, r| card.set(tag, bad_list(r), r))
        });
        all.push(tweak(0, &format!("{tag:X} empty"), move |_, card, r| card.set(tag, vec![], r)));
        all.push(tweak(0, &format!("{tag:X} asks for all that is known"), move |_, card, r| {
            let list = rules::hex::bytes(concat!(
                "9F02069F03069F1A025F2A029A039C019F37049F090295059B028A02",
                "82025A0A5F24035F25039F08029F0D059F0E059F0F059F3303",
            ));
            card.set(tag, list.unwrap_or_default(), r);
        }));
    }
    all
}
