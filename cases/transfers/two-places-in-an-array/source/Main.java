// That an object is the only one of its place does not make an event one on it, where the receiver may be of another
// place.

class F {
    void open() {}
    void read() {}
}

final class Main {
    public static void main(String[] words) {
        F a = new F();
        F[] box = {a, new F()};
        box[1].open();
        a.read();
    }
}
