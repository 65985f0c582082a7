//! Writes tasks, arrivals and the run length as tagged fields, and keeps them apart until a case
//! is put together.

#[derive(Clone, Copy, Debug)]
pub struct NewTask(pub u16, pub u16, pub u16);

#[derive(Clone, Copy, Debug)]
pub struct NewArrival {
    pub slot: u32,
    pub work: u16,
    pub latest: Option<u32>,
}

#[derive(Clone, Debug, Default)]
pub struct Case {
    pub tasks: Vec<NewTask>,
    pub arrivals: Vec<NewArrival>,
    pub slots: u32,
}

fn field(tag: u8, body: &[u8]) -> Vec<u8> {
    let mut bytes = vec![tag];
    bytes.extend((body.len() as u16).to_le_bytes());
    bytes.extend(body);
    bytes
}

pub fn task(NewTask(c, r, p): NewTask) -> Vec<u8> {
    let body: Vec<u8> = [c, r, p].iter().flat_map(|n| n.to_le_bytes()).collect();
    field(1, &body)
}

pub fn arrival(new: NewArrival) -> Vec<u8> {
    let mut body = new.slot.to_le_bytes().to_vec();
    body.extend(new.work.to_le_bytes());
    if let Some(latest) = new.latest {
        body.extend(latest.to_le_bytes());
    }
    field(2, &body)
}

pub fn slots(count: u32) -> Vec<u8> {
    field(3, &count.to_le_bytes())
}

impl Case {
    pub fn fields(&self) -> Vec<Vec<u8>> {
        let tasks = self.tasks.iter().map(|&t| task(t));
        let arrivals = self.arrivals.iter().map(|&a| arrival(a));
        let end = std::iter::once(slots(self.slots));
        tasks.chain(arrivals).chain(end).collect()
    }

    pub fn bytes(&self) -> Vec<u8> {
        self.fields().concat()
    }
}
