// An event on a path that has the object moves it: what is opened is read, each time.

class F {
    void open() {}
    void read() {}
}

final class Main {
    public static void main(String[] words) {
        for (int i = 0; i < 2; i++) {
            F a = new F();
            a.open();
            a.read();
        }
    }
}
