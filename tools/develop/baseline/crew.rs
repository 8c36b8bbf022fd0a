//! Plays a session with a thread for each actor. The threads take turns at the service, under one lock.

use crate::records::{Actor, Request};
use crate::service::Service;
use std::sync::Mutex;
use std::thread;

/// How many actors there are: the ground and 16 applications.
const ACTORS: usize = 17;

/// The requests of each actor, in order.
pub type Scripts = [Vec<(Actor, Request)>; ACTORS];

/// Plays the script of each actor that has one in a thread of its own, a turn each request, and gives the service back.
pub fn play_beside(service: Service, scripts: Scripts) -> Service {
    let service = Mutex::new(service);
    thread::scope(|scope| {
        for script in scripts.into_iter().filter(|script| !script.is_empty()) {
            scope.spawn(|| play_script(&service, script));
        }
    });
    service.into_inner().expect("no turn panicked")
}

fn play_script(service: &Mutex<Service>, script: Vec<(Actor, Request)>) {
    for (actor, request) in script {
        let mut service = service.lock().expect("no turn panicked");
        service.play(actor, request);
    }
}
