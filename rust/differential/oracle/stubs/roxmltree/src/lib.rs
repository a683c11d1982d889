//! Stands for the crate of this name where none can be fetched. No XML is read here.
use std::marker::PhantomData;

#[derive(Clone, Copy)]
pub struct Node<'a, 'i>(PhantomData<(&'a str, &'i str)>);

pub struct TagName;

impl TagName {
    pub fn name(&self) -> &str {
        unimplemented!("no XML is read here")
    }
}

impl<'a, 'i> Node<'a, 'i> {
    pub fn children(&self) -> std::vec::IntoIter<Node<'a, 'i>> {
        unimplemented!("no XML is read here")
    }

    pub fn is_element(&self) -> bool {
        unimplemented!("no XML is read here")
    }

    pub fn tag_name(&self) -> TagName {
        unimplemented!("no XML is read here")
    }

    pub fn attribute(&self, _name: &str) -> Option<&'a str> {
        unimplemented!("no XML is read here")
    }

    pub fn text(&self) -> Option<&'a str> {
        unimplemented!("no XML is read here")
    }
}
