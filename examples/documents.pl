#!/usr/bin/env perl
# Tries the examples of README.md, docs/*.md and examples/README.md.
#
#     examples/documents.pl [PROGRAM]
#
# PROGRAM is the built program (crates/hubsync/out/hubsync if left out). An example is an indented line `$ COMMAND`, in which
# `./hubsync` is PROGRAM. The lines below it are what the command writes to standard output, and if one of them begins with
# `hubsync: ` also what it writes to standard error. A note there has to be shown. If lines of a bundle stand above the command, they
# are in the file that it reads, comments aside. A line is printed for each example that is wrong. The status is 1 if there was one, else 0.
use strict;
use warnings;
use Cwd qw(abs_path);
use File::Basename qw(dirname);
use File::Temp qw(tempdir);

my $top     = dirname(dirname(abs_path($0)));
my $program = abs_path($ARGV[0] // "$top/crates/hubsync/out/hubsync");
my ($tried, $wrong) = (0, 0);
if (!defined $program || !-x $program) {
    print "documents: there is no program at ", $ARGV[0] // 'crates/hubsync/out/hubsync', "\n";
    exit 1;
}
my $room = tempdir(CLEANUP => 1);
chdir $room or die "$room: $!\n";
symlink $program, 'hubsync' or die "hubsync: $!\n";
symlink "$top/$_", $_ or die "$_: $!\n" for 'examples', 'tools';

sub contents_of {
    my ($file) = @_;
    open my $handle, '<', $file or return;
    local $/ = undef;
    return <$handle> // '';
}

sub complain {
    my ($place, $text) = @_;
    print "documents: $place: $text\n";
    $wrong++;
}

# Runs a command, and compares what it writes with what is shown.
sub try_command {
    my ($place, $command, $shown) = @_;
    $tried++;
    system 'bash', '-c', "{ $command\n} >.output 2>.errors </dev/null";
    my ($output, $errors) = (contents_of('.output'), contents_of('.errors'));
    $output .= $errors if $errors =~ /^hubsync: note: /m || $shown =~ /^hubsync: /m;
    complain($place, "$command writes something else:\n$output") if $output ne $shown;
}

# Whether the file that a command reads has these lines one after another, but for comments.
sub is_in_file {
    my ($lines, $command) = @_;
    my $text = $command =~ /< (\S+)$/ ? contents_of($1) : undef;
    s/^#.*\n//mg for grep { defined } $lines, $text;
    return defined $text && index("\n$text", "\n$lines") >= 0;
}

# Tries the examples of a block, whose paragraphs blank lines separate.
sub try_block {
    my ($place, $block) = @_;
    my @above;
    for my $paragraph (split /\n\n+/, $block =~ s/\n+\z//r) {
        my ($lines, @commands) = split /^\$ /m, "$paragraph\n";
        push @above, $lines if $lines ne '';
        for (@commands) {
            my ($command, $shown) = split /\n/, $_, 2;
            is_in_file($_, $command) or complain($place, "$command reads no such lines:\n$_") for splice @above;
            try_command($place, $command, $shown);
        }
    }
}

for my $document (map { glob "$top/$_" } 'README.md', 'docs/*.md', 'examples/README.md') {
    my ($name) = $document =~ m{^\Q$top\E/(.*)};
    my $text = contents_of($document);
    while ($text =~ /((?:^ {4}.*\n|^\n(?=(?:\n)*    ))+)/mg) {
        my ($block, $line) = ($1, 1 + (substr($text, 0, $-[1]) =~ tr/\n//));
        $block =~ s/^\n+//;
        $block =~ s/^ {4}//mg;
        try_block("$name line $line", $block) if $block =~ /^\$ /m;
    }
}
complain('no document', 'there is no example') if $tried == 0;
print "documents: $tried examples, $wrong of them wrong\n";
exit($wrong ? 1 : 0);
