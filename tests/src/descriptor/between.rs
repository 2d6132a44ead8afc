//! Blocks without values, and annotations.

use super::clothing::Clothing;
use super::draft::{Field, Kind, Role};

impl Clothing<'_> {
    /// At times a block without values, or an annotation.
    pub fn between(&mut self) {
        if !self.rich || !self.rng.once_in(4) {
            return;
        }
        match self.rng.below(5) {
            0 | 1 => self.object(),
            2 => self.compound(),
            3 => self.record(),
            _ => self.annotation(),
        }
    }

    pub fn object(&mut self) {
        let fields = vec![self.id(false), self.text(), self.bool()];
        self.add(Kind::ObjectType, 10, fields);
    }

    /// Its operation is 1 or 2 (R3.6).
    fn compound(&mut self) {
        let operation = self.rng.between(1, 2) as u32;
        let mut fields = vec![
            self.id(false),
            self.text(),
            self.bool(),
            Field::number(Role::Operation, 1, operation),
        ];
        let count = self.rng.pick(&[0, 1, 2, 4]);
        let components: Vec<u16> = (0..count)
            .filter_map(|_| self.some(Role::ObjectType))
            .collect();
        fields.push(Field::count(components.len()));
        fields.extend(
            components
                .iter()
                .map(|&index| Field::reference(Role::ObjectType, index)),
        );
        self.add(Kind::ObjectType, 11, fields);
    }

    /// Names may be twice, and elements of any kind.
    fn record(&mut self) {
        let count = self.rng.pick(&[0, 1, 2, 4]);
        let elements: Vec<u16> = (0..count)
            .filter_map(|_| self.some(Role::Earlier))
            .collect();
        let mut fields = vec![self.id(false), Field::count(elements.len())];
        for index in elements {
            fields.extend([self.text(), Field::reference(Role::Earlier, index)]);
        }
        self.add(Kind::Record, 13, fields);
    }

    fn annotation(&mut self) {
        if let Some(index) = self.some(Role::Earlier) {
            let fields = vec![
                Field::reference(Role::Earlier, index),
                self.text(),
                self.text(),
            ];
            self.add(Kind::Annotation, 0x7f, fields);
        }
    }
}
