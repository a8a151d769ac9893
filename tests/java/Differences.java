import java.io.IOException;
import java.lang.module.*;
import java.lang.module.ModuleDescriptor.Requires.Modifier;
import java.nio.file.*;
import java.util.*;
import java.util.concurrent.Callable;
import java.util.jar.JarOutputStream;
import java.util.spi.ToolProvider;
import java.util.stream.*;
import java.util.zip.ZipEntry;

/** Prints what Java (JDK 17) answers to the inputs of docs/DIFFERENCES.md, a line each: java tests/java/Differences.java */
public class Differences {
    static boolean take(Deque<String> words, String word) {
        return word.equals(words.peek()) && words.remove(word);
    }

    /** A module in the document's notation, as "a RQ static b, EX p to c" or "x automatic PK p". */
    static ModuleReference module(String text) {
        Deque<String> words = new ArrayDeque<>(List.of(text.split("[ ,]+")));
        String name = words.pop();
        ModuleDescriptor.Builder b = take(words, "automatic") ? ModuleDescriptor.newAutomaticModule(name)
            : take(words, "open") ? ModuleDescriptor.newOpenModule(name) : ModuleDescriptor.newModule(name);
        while (!words.isEmpty()) {
            String mark = words.pop();
            Set<Modifier> flags = EnumSet.noneOf(Modifier.class);
            if (take(words, "static")) flags.add(Modifier.STATIC);
            if (take(words, "transitive")) flags.add(Modifier.TRANSITIVE);
            String what = words.pop().replace('/', '.');
            Set<String> to = take(words, "to") ? Set.of(words.pop()) : null;
            b = switch (mark) {
                case "RQ" -> b.requires(flags, what);
                case "EX" -> to == null ? b.exports(what) : b.exports(what, to);
                case "OP" -> to == null ? b.opens(what) : b.opens(what, to);
                case "US" -> b.uses(what);
                case "PV" -> b.provides(what, List.of(name + ".Implementation"));
                case "PK" -> b.packages(Set.of(what));
                default -> throw new IllegalArgumentException(mark);
            };
        }
        return new ModuleReference(b.build(), null) {
            public ModuleReader open() { throw new UnsupportedOperationException(); }
        };
    }

    /** The modules of one place, separated by semicolons. */
    static ModuleFinder place(String text) {
        Map<String, ModuleReference> all = Stream.of(text.split("; ")).map(Differences::module)
            .collect(Collectors.toMap(m -> m.descriptor().name(), m -> m));
        return new ModuleFinder() {
            public Optional<ModuleReference> find(String name) { return Optional.ofNullable(all.get(name)); }
            public Set<ModuleReference> findAll() { return Set.copyOf(all.values()); }
        };
    }

    /** Places, with PL between them. */
    static ModuleFinder set(String text) {
        return ModuleFinder.compose(Stream.of(text.split("; PL; ")).map(Differences::place).toArray(ModuleFinder[]::new));
    }

    /** With services. java.base is in the parent, with the JDK's other modules. */
    static Configuration resolve(ModuleFinder finder, String... roots) {
        return ModuleLayer.boot().configuration().resolveAndBind(finder, ModuleFinder.of(), List.of(roots));
    }

    /** The modules resolved, each with those of them that it reads. */
    static Map<String, List<String>> reads(Configuration c) {
        Map<String, List<String>> reads = new TreeMap<>();
        c.modules().forEach(m -> reads.put(m.name(), m.reads().stream().filter(r -> r != m && r.configuration() == c)
            .map(ResolvedModule::name).sorted().toList()));
        return reads;
    }

    static ModuleLayer.Controller layer(String set) {
        ModuleFinder finder = set(set);
        String[] roots = finder.findAll().stream().map(m -> m.descriptor().name()).toArray(String[]::new);
        return ModuleLayer.defineModulesWithManyLoaders(resolve(finder, roots), List.of(ModuleLayer.boot()), null);
    }

    static Module find(ModuleLayer.Controller layer, String name) {
        return name.equals("ALL-UNNAMED") ? Differences.class.getModule()
            : layer.layer().findModule(name).orElseThrow(() -> new NoSuchElementException("no module " + name));
    }

    /** AR SOURCE TARGET, AE SOURCE PACKAGE TARGET or AO SOURCE PACKAGE TARGET. */
    static void add(ModuleLayer.Controller layer, String text) {
        String[] words = text.split(" ");
        Module source = find(layer, words[1]), target = find(layer, words[words.length - 1]);
        switch (words[0]) {
            case "AR" -> layer.addReads(source, target);
            case "AE" -> layer.addExports(source, words[2], target);
            case "AO" -> layer.addOpens(source, words[2], target);
        }
    }

    static void say(String input, Callable<?> answer) {
        try {
            System.out.println(input + ": " + answer.call());
        } catch (Exception e) {
            System.out.println(input + ": " + e);
        }
    }

    static void resolved(String set, String... roots) {
        say(set + "; roots " + String.join(", ", roots), () -> reads(resolve(set(set), roots)));
    }

    /** A set and overrides behind it; all modules are roots. */
    static void asked(String text, String asker, String target, String p) {
        say(text + "; asker " + asker + ", target " + target + ", package " + p, () -> {
            String[] parts = text.split("; (?=A[REO] )");
            ModuleLayer.Controller layer = layer(parts[0]);
            Stream.of(parts).skip(1).forEach(o -> add(layer, o));
            Module a = find(layer, asker), t = find(layer, target);
            return "reads " + a.canRead(t) + ", exported " + t.isExported(p, a) + ", open " + t.isOpen(p, a);
        });
    }

    /** Runs java with the modules of a folder: which of them it resolves, warnings, errors, what a main class prints. */
    static void command(Path modules, String options) {
        say("java " + options, () -> {
            String java = System.getProperty("java.home") + "/bin/java", end = options.contains("-m ") ? "" : " --version";
            String line = java + " -p " + modules + " --show-module-resolution " + options + end;
            Process p = new ProcessBuilder(line.split(" ")).redirectErrorStream(true).start();
            return p.inputReader().lines().filter(l -> l.matches(".* file:.*|WARNING.*|java.lang.*|main.*"))
                .map(l -> l.replaceAll(" file:.*", "")).toList();
        });
    }

    /** Compiled modules: t opens p; d makes an object of p.C; n does not read t and asks for a private field of p.C. */
    static void compile(Path source, Path modules) throws IOException {
        String main = "class Main { public static void main(String[] a) throws Exception { System.out.println(\"main: \" + ";
        Map<String, String> files = Map.of(
            "a/module-info.java", "module a { requires b; }", "b/module-info.java", "module b { }",
            "t/module-info.java", "module t { opens p; }", "t/p/C.java", "package p; public class C { private static int f; }",
            "d/module-info.java", "module d { requires t; }", "d/d/Main.java", "package d; " + main + "new p.C().getClass()); }}",
            "n/module-info.java", "module n { }",
            "n/n/Main.java", "package n; " + main + "Class.forName(\"p.C\").getDeclaredField(\"f\").trySetAccessible()); }}");
        for (String f : files.keySet()) {
            Files.createDirectories(source.resolve(f).getParent());
            Files.writeString(source.resolve(f), files.get(f));
        }
        ToolProvider.findFirst("javac").orElseThrow().run(System.out, System.err, "-d", "" + modules, "--module-source-path",
            "" + source, "--module", "a,b,t,d,n", "--add-exports", "t/p=d");
    }

    public static void main(String[] args) throws IOException {
        Path folder = Files.createTempDirectory("differences"), modules = folder.resolve("modules");
        compile(folder.resolve("source"), modules);
        Path jar = folder.resolve("x.jar"), broken = folder.resolve("broken");
        try (JarOutputStream out = new JarOutputStream(Files.newOutputStream(jar))) {
            out.putNextEntry(new ZipEntry("p/T.class"));
            out.putNextEntry(new ZipEntry("META-INF/services/java.lang.Runnable"));
            out.write("p.T".getBytes());
        }
        Files.createFile(Files.createDirectories(broken.resolve("a")).resolve("module-info.class"));

        System.out.println("Resolution and places: the modules resolved, each with those of them that it reads");
        resolved("a RQ static b; b", "a"); // without ST b is left out here too; with ST it is resolved, and a reads it
        resolved("a RQ static b; b", "a", "b");
        resolved("d RQ a; a RQ static transitive b; b", "d", "b");
        resolved("a RQ static b, US java/lang/Runnable; b PV java/lang/Runnable", "a");
        resolved("a RQ x; x automatic; y automatic", "a", "y");
        resolved("x automatic; y automatic", "x");
        say("a US java/lang/Runnable; x.jar with META-INF/services/java.lang.Runnable; root a", () ->
            reads(resolve(ModuleFinder.compose(set("a US java/lang/Runnable"), ModuleFinder.of(jar)), "a")));
        resolved("x automatic; b PV java/lang/Runnable", "x");
        resolved("x automatic RQ b; b", "x");
        say("x automatic; may x load a service", () -> find(layer("x automatic"), "x").canUse(Runnable.class));
        resolved("a US p/S", "a");
        resolved("a PV p/S", "a");
        resolved("a RQ b; b RQ a", "a");
        resolved("a PK p; b PK p", "a", "b");
        say("one loader", () -> ModuleLayer.boot().defineModulesWithOneLoader(resolve(set("a PK p; b PK p"), "a", "b"), null));
        resolved("a PK p, RQ b; b PK p, EX p", "a");
        command(modules, "--limit-modules a --add-modules a");
        command(modules, "--limit-modules java.base --add-modules b");
        command(modules, "--limit-modules java.base --add-modules a");
        command(modules, "--limit-modules z --add-modules b");
        say("a PK p; PL; a PK q; the packages of a", () -> find(layer("a PK p; PL; a PK q"), "a").getPackages());
        ModuleFinder places = ModuleFinder.compose(ModuleFinder.ofSystem(), set("a"), ModuleFinder.of(broken));
        ModuleFinder none = ModuleFinder.of();
        say("java.base; a; PL; a malformed; root a; without services", () ->
            reads(Configuration.empty().resolve(places, none, Set.of("a"))));
        say("the same, with services", () -> reads(Configuration.empty().resolveAndBind(places, none, Set.of("a"))));
        System.out.println("Access and the graph");
        asked("a; AR a ALL-UNNAMED", "a", "ALL-UNNAMED", "p");
        asked("x automatic", "x", "ALL-UNNAMED", "p");
        asked("t", "ALL-UNNAMED", "t", "p");
        asked("a", "a", "a", "p");
        asked("a", "z", "java.base", "java.lang");
        asked("a EX p to b, EX p; c RQ a", "c", "a", "p");
        asked("t EX p to ALL-UNNAMED", "ALL-UNNAMED", "t", "p");
        asked("a RQ t; t PK p, OP p", "a", "t", "p");
        asked("a RQ t; t PK p; AO t p a", "a", "t", "p");
        asked("a RQ t; t open PK p", "a", "t", "p");
        command(modules, "-m d/d.Main");
        asked("a RQ t; t; AE t p a", "a", "t", "p");
        command(modules, "--add-modules a --add-exports b/p=a --add-opens b/p=a");
        asked("a; t PK p, OP p", "a", "t", "p");
        command(modules, "--add-modules t -m n/n.Main");
        Files.walk(folder).sorted(Comparator.reverseOrder()).forEach(f -> f.toFile().delete());
    }
}
