// Where an event was on the object, the receiver has it, and the next event is on it for sure: so it is closed when it
// is opened once more.

class F {
    void open() {}
    void close() {}
}

final class Main {
    static F make() {
        return new F();
    }

    public static void main(String[] words) {
        make();
        F[] box = {make()};
        F a = box[0];
        a.open();
        a.close();
        F b = box[0];
        b.open();
    }
}
